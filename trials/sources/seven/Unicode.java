package größe.ελλάδα;

/** Names beyond ASCII, up to characters of two units. */
class Größe {
    int größe;
    String 名前 = "日本語 \uD83D\uDE00";

    int λ(int µ) {
        return µ;
    }

    class 内側 {
        int ﬁ;
    }

    static class 𝒜𝒷 {
        int 𠀀;
    }
}

class Ё {
}

class $dollar$ {
    class $ {
        class $$ {
        }
    }
}

class _under_ {
}
