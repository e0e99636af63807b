package texts;

/** Long and odd texts. */
class Texts {
    static final String LINES = "first\n" + "second\r\n" + "third\t\"quoted\" \\ back";
    static final String ODD = "\0\0\0\u0001\u001f\u007f\u0080\u00ff\u0100\u07ff\u0800\u2028\ud7ff\ue000\ufeff\ufffe\uffff";
    static final String ALONE = "\udc00 \ud800 \ud83d";
    static final String PAIR = "\ud83d\ude00\ud83d\ude01";
    static final String LONG = "0123456789abcdef0123456789abcdef0123456789abcdef0123456789abcdef"
        + "0123456789abcdef0123456789abcdef0123456789abcdef0123456789abcdef"
        + "0123456789abcdef0123456789abcdef0123456789abcdef0123456789abcdef"
        + "0123456789abcdef0123456789abcdef0123456789abcdef0123456789abcdef"
        + "0123456789abcdef0123456789abcdef0123456789abcdef0123456789abcdef";

    String all() {
        return LINES + ODD + ALONE + PAIR + LONG + hashCode();
    }
}
