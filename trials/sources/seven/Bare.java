class Bare {
}

interface BareInterface {
}

abstract class BareAbstract {
    private BareAbstract() {
    }

    static class Access extends BareAbstract {
        private int secret;
    }

    int read(Access access) {
        return access.secret;
    }
}

@interface BareMark {
}
