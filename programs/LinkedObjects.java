/** A tree of objects, filled and walked by recursion, and a list that is turned round. */
class LinkedObjects {
    static class Tree {
        Tree left, right;
        final int key;

        Tree(int key) {
            this.key = key;
        }

        void add(int other) {
            if (other < key) {
                if (left == null) {
                    left = new Tree(other);
                } else {
                    left.add(other);
                }
            } else if (right == null) {
                right = new Tree(other);
            } else {
                right.add(other);
            }
        }

        Link collected(Link behind) {
            Link list = right == null ? behind : right.collected(behind);
            list = new Link(key, list);
            return left == null ? list : left.collected(list);
        }
    }

    static class Link {
        final int value;
        Link next;

        Link(int value, Link next) {
            this.value = value;
            this.next = next;
        }

        Link turned() {
            Link done = null;
            Link rest = this;
            while (rest != null) {
                Link next = rest.next;
                rest.next = done;
                done = rest;
                rest = next;
            }
            return done;
        }
    }

    public static void main(String[] args) {
        Tree tree = new Tree(50);
        int[] keys = {20, 70, 10, 30, 60, 20};
        for (int key : keys) {
            tree.add(key);
        }
        for (Link link = tree.collected(null).turned(); link != null; link = link.next) {
            System.out.println(link.value);
        }
    }
}
