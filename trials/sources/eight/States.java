package states;

import java.util.function.IntBinaryOperator;

/** Enums whose constants hold lambdas. */
enum Operation implements IntBinaryOperator {
    ADD("+", (a, b) -> a + b),
    SUBTRACT("-", (a, b) -> a - b),
    TIMES("×", (a, b) -> a * b) {
        @Override
        boolean isFirst() {
            return true;
        }
    };

    private final String sign;
    private final IntBinaryOperator work;

    Operation(String sign, IntBinaryOperator work) {
        this.sign = sign;
        this.work = work;
    }

    boolean isFirst() {
        return false;
    }

    @Override
    public int applyAsInt(int left, int right) {
        return work.applyAsInt(left, right);
    }
}

class Machine {
    enum State {
        READY, RUNNING, DONE;

        State next() {
            return values()[(ordinal() + 1) % values().length];
        }
    }

    static String say(State state, Operation operation) {
        switch (state) {
            case READY:
                return "ready";
            case RUNNING:
                switch (operation) {
                    case ADD:
                        return "adds";
                    default:
                        return "works";
                }
            default:
                throw new AssertionError(state);
        }
    }
}
