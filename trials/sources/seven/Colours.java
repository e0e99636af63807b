package shapes;

import java.util.EnumMap;
import java.util.Map;

/** Enums with bodies, and a switch over them. */
enum Colour {
    RED(0xff0000) {
        @Override
        String mood() {
            return "warm";
        }
    },
    GREEN(0x00ff00) {
        @Override
        String mood() {
            return "calm";
        }
    },
    BLUE(0x0000ff) {
        @Override
        String mood() {
            return "cool";
        }
    };

    final int code;

    Colour(int code) {
        this.code = code;
    }

    abstract String mood();
}

enum Empty {
}

enum Single {
    ONE
}

class Painter {
    private final Map<Colour, Integer> counts = new EnumMap<>(Colour.class);

    int paint(Colour colour) {
        switch (colour) {
            case RED:
                return 1;
            case BLUE:
                return 2;
            default:
                Integer count = counts.get(colour);
                return count == null ? 0 : count;
        }
    }
}
