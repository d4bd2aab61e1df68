/** A StringBuilder grows by what is appended, also by itself and by null; what it gave before stays as it was. */
class Builds {
    static void shown(StringBuilder builder) {
        System.out.println("[" + builder.toString() + "] " + builder.length());
    }

    static void nulls() {
        StringBuilder builder = new StringBuilder("n");
        builder.append((String) null).append((StringBuilder) null).append((CharSequence) null);
        shown(builder);
        try {
            shown(new StringBuilder((String) null));
        } catch (NullPointerException none) {
            System.out.println("no String");
        }
        try {
            shown(new StringBuilder((CharSequence) null));
        } catch (NullPointerException none) {
            System.out.println("no CharSequence");
        }
        builder = null;
        try {
            builder.append("text");
        } catch (NullPointerException none) {
            System.out.println("no StringBuilder");
        }
    }

    public static void main(String[] args) {
        shown(new StringBuilder());
        StringBuilder builder = new StringBuilder("text");
        String before = builder.toString();
        shown(builder.append(1).append('2').append("").append(false));
        System.out.println(before);
        shown(builder.append(builder));
        StringBuilder other = new StringBuilder(builder);
        other.append('!').append(new StringBuilder("?"));
        shown(other);
        shown(builder);
        CharSequence sequence = other;
        shown(new StringBuilder(40).append(sequence).append(sequence, 1, 4));
        System.out.println(builder == builder.append("") ? "itself" : "another");
        nulls();
        try {
            new StringBuilder(-1);
        } catch (NegativeArraySizeException negative) {
            System.out.println("negative");
        }
    }
}
