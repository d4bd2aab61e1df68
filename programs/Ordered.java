/** What can be compared and what has chars, by their interfaces: Strings and classes of the program. */
class Ordered {
    static class Size implements Comparable<Size> {
        final int size;

        Size(int size) {
            this.size = size;
        }

        public int compareTo(Size other) {
            return size - other.size;
        }

        public boolean equals(Object other) {
            return other instanceof Size && ((Size) other).size == size;
        }
    }

    static class Dashes implements CharSequence {
        final int count;

        Dashes(int count) {
            this.count = count;
        }

        public int length() {
            return count;
        }

        public char charAt(int index) {
            return '-';
        }

        public CharSequence subSequence(int begin, int end) {
            return new Dashes(end - begin);
        }

        public String toString() {
            return "-----".substring(0, count);
        }
    }

    static void sort(Comparable[] all) {
        for (int end = all.length; end > 1; end--) {
            for (int place = 1; place < end; place++) {
                if (all[place - 1].compareTo(all[place]) > 0) {
                    Comparable kept = all[place];
                    all[place] = all[place - 1];
                    all[place - 1] = kept;
                }
            }
        }
    }

    static int count(CharSequence text, char unit) {
        int found = 0;
        for (int place = 0; place < text.length(); place++) {
            found += text.charAt(place) == unit ? 1 : 0;
        }
        return found;
    }

    static void say(boolean is) {
        System.out.print(is ? "yes " : "no ");
    }

    public static void main(String[] args) {
        String[] words = {"pear", "apple", "", "fig", "app"};
        sort(words);
        for (String word : words) {
            System.out.print(word.concat(","));
        }
        Size[] sizes = {new Size(3), new Size(1), new Size(2)};
        sort(sizes);
        System.out.println(sizes[0].size * 100 + sizes[1].size * 10 + sizes[2].size);
        System.out.println(count("banana", 'a') + count(new Dashes(4), '-'));
        System.out.println("a--b".indexOf(new Dashes(2).toString()));
        Object one = new Object();
        int[] numbers = {1};
        say(one.equals(one));
        say(one.equals(null));
        say(numbers.equals(numbers));
        say(numbers.equals(new int[] {1}));
        say(sizes[0].equals(new Size(1)));
        say(one.equals("one"));
        say("a--b".contains(new Dashes(2).subSequence(0, 2)));
        say(new Dashes(3).equals("---"));
        say("---".contentEquals(new Dashes(3)));
        System.out.println();
        try {
            sort(new Comparable[] {new Size(1), "apple"});
        } catch (ClassCastException other) {
            System.out.println("of another class");
        }
    }
}
