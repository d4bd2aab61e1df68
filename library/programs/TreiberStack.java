import java.util.concurrent.atomic.AtomicReference;

/** A stack without locks, by compareAndSet of its top. */
class TreiberStack {
    static class Node {
        final int value;
        Node next;

        Node(int value) {
            this.value = value;
        }
    }

    static class Stack {
        private final AtomicReference<Node> top = new AtomicReference<Node>();

        void push(int value) {
            Node node = new Node(value);
            do {
                node.next = top.get();
            } while (!top.compareAndSet(node.next, node));
        }

        Node pop() {
            Node node;
            do {
                node = top.get();
                if (node == null) {
                    return null;
                }
            } while (!top.compareAndSet(node, node.next));
            return node;
        }
    }

    public static void main(String[] args) throws Exception {
        final Stack stack = new Stack();
        Thread[] threads = new Thread[2];
        for (int t = 0; t < 2; t++) {
            final int base = t * 10;
            threads[t] = new Thread() {
                public void run() {
                    for (int i = 0; i < 10; i++) {
                        stack.push(base + i);
                    }
                }
            };
            threads[t].start();
        }
        threads[0].join();
        threads[1].join();
        int sum = 0, count = 0;
        for (Node node = stack.pop(); node != null; node = stack.pop()) {
            sum += node.value;
            count++;
        }
        System.out.println(count);
        System.out.println(sum);
    }
}
