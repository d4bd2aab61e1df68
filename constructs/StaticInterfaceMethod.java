/*
 * Classes and interfaces: a static method of an interface
 *
 * StaticInterfaceMethod.java:15: Numbers.seven(), a method with a body of an interface: put it into a class
 * StaticInterfaceMethod.java:9: the method int seven(), a static method of an interface: put it into a class
 */
interface Numbers {
    static int seven() {
        return 7;
    }
}

class StaticInterfaceMethod {
    public static void main(String[] words) {
        System.out.println(Numbers.seven());
    }
}
