/** The first program. */
class Hello {
    public static void main(String[] args) {
        System.out.println("hello");
    }
}
