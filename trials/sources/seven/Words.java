package words;

/** Switches on strings and numbers, labels and loops. */
class Words {
    static int rank(String word) {
        switch (word) {
            case "one":
                return 1;
            case "two":
                return 2;
            case "Aa":
            case "BB":
                return 3;
            case "":
                return 0;
            default:
                return -1;
        }
    }

    static int table(int number) {
        switch (number) {
            case 0: return 5;
            case 1: return 4;
            case 2: return 3;
            case 3: return 2;
            case 5: return 1;
            default: return 0;
        }
    }

    static int lookup(int number) {
        switch (number) {
            case Integer.MIN_VALUE: return 1;
            case -7: return 2;
            case 1000: return 3;
            case Integer.MAX_VALUE: return 4;
            default: return 0;
        }
    }

    static int loops(int[][] rows) {
        int sum = 0;
        outer:
        for (int[] row : rows) {
            for (int value : row) {
                if (value < 0) {
                    continue outer;
                }
                if (value > 100) {
                    break outer;
                }
                sum += value;
            }
        }
        do {
            sum--;
        } while (sum > 10);
        while (sum != 0) {
            sum /= 2;
        }
        return sum;
    }
}
