/*
 * Classes and interfaces: a class file of another version
 *
 * Version: 52
 *
 * OtherVersion/OtherVersion.class has version 52.0; only 49.0 is taken: compile it by tools/java-classes
 */
class OtherVersion {
    public static void main(String[] words) {
        System.out.println(7);
    }
}
