package natives;

/** All sorts of flags. */
public abstract strictfp class Natives {
    protected transient volatile int shared;
    private static transient Object hidden;

    static {
        hidden = new Object();
    }

    public static native long address(Object value, byte[] bytes, int[]... more);

    protected abstract strictfp_name go(double x, long y);

    final synchronized strictfp double both(double x) {
        return x / 3;
    }

    private native void inside();

    static class strictfp_name {
    }

    static int many(int... values) {
        return values.length;
    }

    static int call() {
        return many() + many(1) + many(1, 2, 3);
    }
}
