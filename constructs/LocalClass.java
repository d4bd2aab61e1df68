/*
 * Classes and interfaces: local classes, which see local variables
 *
 * It works.
 */
class LocalClass {
    public static void main(String[] words) {
        int number = words.length + 7;
        class Local {
            int twice() {
                return 2 * number;
            }
        }
        System.out.println(new Local().twice());
    }
}
