package chains;

/** Calls across many classes, and long expressions. */
class First {
    Second next() {
        return new Second();
    }
}

class Second extends First {
    Third third = new Third();

    @Override
    Second next() {
        return this;
    }
}

class Third implements Runnable, Cloneable, java.io.Serializable {
    long[][][] cube = new long[2][3][4];
    Object[] things = {1, 2L, 3.0f, 4.0, 'c', "s", null, new int[] {1, 2, 3}, int[].class};

    @Override
    public void run() {
        cube[1][2][3] += things.length;
        cube[0][0][0] <<= cube[1][1][1]--;
        boolean is = cube instanceof Object && !(things[0] instanceof String) || things == null;
        int chosen = is ? 1 : cube.length > 3 ? 2 : 3;
        things[chosen] = (Integer) things[0] + (Long) things[1] + "text" + chosen + is;
    }

    @Override
    protected Third clone() throws CloneNotSupportedException {
        return (Third) super.clone();
    }
}

class Chain {
    String go() {
        return new StringBuilder().append(1).append('c').append(2L).append(3.5).append(new First().next().third).toString();
    }
}
