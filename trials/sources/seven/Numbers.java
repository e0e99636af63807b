package numbers;

/** Constants of each sort, in fields and in code. */
public final class Numbers {
    public static final long LONGEST = Long.MAX_VALUE;
    public static final long LOWEST = Long.MIN_VALUE;
    public static final double LARGEST = Double.MAX_VALUE;
    public static final double TINIEST = Double.MIN_VALUE;
    public static final double NOT_A_NUMBER = 0.0 / 0.0;
    public static final double MINUS_ZERO = -0.0;
    public static final float ENDLESS = 1.0f / 0.0f;
    public static final int LOW = Integer.MIN_VALUE;
    static final char LETTER = '\u0000';
    static final byte OCTET = -128;
    static final short BRIEF = 32767;
    static final boolean IS = true;
    static final String TEXT = "a\0b\u007f\u0080\u07ff\u0800\uffff\ud800";

    private Numbers() {
    }

    static long mix(long seed) {
        seed ^= seed >>> 33;
        seed *= 0xff51afd7ed558ccdL;
        seed ^= seed >>> 33;
        seed *= 0xc4ceb9fe1a85ec53L;
        return seed ^ (seed >>> 33);
    }

    static double curve(double x) {
        return 0.1 * x * x + 2.718281828459045 * x - 1e300 / x + 1e-300;
    }

    static float small(float x) {
        return x * 3.4e38f + 1.4e-45f - 100_000f;
    }

    static int bits(int x) {
        return x * 0x01010101 + 0b1010_1010_1010_1010_1010 - 070707;
    }
}

interface Constants {
    long FIRST = 1L << 40;
    double SECOND = 1e10;
    long THIRD = 3_000_000_000L;
}

class OnlyLong {
    static final long ONE = 123456789012L;
}

class OnlyDouble {
    double two = 2.25;
}
