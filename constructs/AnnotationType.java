/*
 * Classes and interfaces: an annotation type of your own
 *
 * AnnotationType.java: the class java.lang.annotation.Annotation, of an annotation type: leave the annotation out
 */
class AnnotationType {
    @interface Guarded {
    }

    @Guarded
    public static void main(String[] words) {
        System.out.println(7);
    }
}
