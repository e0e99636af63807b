package shapes;

/** Inner, nested, local and anonymous classes. */
public class Shapes {
    private double scale = 1.5;

    class Inner {
        double area = scale * 2;

        class Innermost {
            double both = area + scale;
        }
    }

    static class Nested {
        protected static final Nested ONLY = new Nested();
    }

    interface Sized {
        int SIZE = 3;

        int size();
    }

    Sized local(final int base) {
        class Local implements Sized {
            @Override
            public int size() {
                return base + SIZE;
            }
        }
        return new Local();
    }

    Sized anonymous(final int base) {
        return new Sized() {
            int more = base;

            {
                more += 1;
            }

            @Override
            public int size() {
                return new Object() {
                    int once() {
                        return more;
                    }
                }.once();
            }
        };
    }
}
