/** Inner, nested, local and anonymous classes, with the fields and variables that they capture. */
class InnerClasses {
    private int total = 1;

    class Part implements Runnable {
        private final int amount;

        Part(int amount) {
            this.amount = amount;
        }

        class Echo {
            int twice() {
                return 2 * amount + total;
            }
        }

        public void run() {
            total += amount;
            System.out.println(new Echo().twice());
        }
    }

    private static int hidden(int n) {
        return n + 1000;
    }

    static class Nested {
        int call(int n) {
            return hidden(n);
        }
    }

    Runnable local(final int captured) {
        class Local implements Runnable {
            public void run() {
                total *= captured;
            }
        }
        return new Local();
    }

    void all() throws InterruptedException {
        new Part(5).run();
        Thread other = new Thread(local(3)) {
            public void run() {
                super.run();
                System.out.println(total);
            }
        };
        other.start();
        other.join();
        System.out.println(new Nested().call(total));
    }

    public static void main(String[] args) throws InterruptedException {
        new InnerClasses().all();
    }
}
