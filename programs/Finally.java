/** try, catch and finally: each way out runs what has to be run. */
class Finally {
    static class Own extends Exception {
        final int number;

        Own(int number) {
            this.number = number;
        }
    }

    static class Below extends Own {
        Below() {
            super(77);
        }
    }

    static int way(int which) throws Own {
        try {
            if (which == 0) {
                return 10;
            }
            if (which == 1) {
                throw new Own(11);
            }
            if (which == 2) {
                throw new Below();
            }
        } catch (Below e) {
            return e.number;
        } finally {
            System.out.println(which);
            if (which == 3) {
                return 13;
            }
        }
        return 14;
    }

    @SuppressWarnings("finally")
    static int swallowed() {
        try {
            throw new Error();
        } finally {
            return 15;
        }
    }

    public static void main(String[] args) throws Own {
        for (int i = 0; i < 5; i++) {
            try {
                System.out.println(way(i));
            } catch (Own e) {
                System.out.println(-e.number);
            }
        }
        System.out.println(swallowed());
        way(1);
    }
}
