package defaults;

/** Interfaces with default and static methods. */
interface Shape {
    double UNIT = 1.25;

    double area();

    default double doubled() {
        return area() * 2 * UNIT;
    }

    static Shape of(double area) {
        return () -> area;
    }

    interface Named extends Shape {
        default String name() {
            return getClass().getName();
        }
    }
}

interface Other {
    default double doubled() {
        return -1;
    }
}

class Square implements Shape.Named, Other {
    long side = 5_000_000_000L;

    @Override
    public double area() {
        return side * side;
    }

    @Override
    public double doubled() {
        return Shape.Named.super.doubled() + Other.super.doubled();
    }
}
