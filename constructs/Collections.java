/*
 * The library: lists, sets, maps and what else `java.util` has
 *
 * Collections.java: the field java.util.Map found: the class java.util.Map: write a class of your own, over arrays
 * Collections.java:20: the class java.util.ArrayList: write a class of your own, over arrays
 * Collections.java:21: the class java.util.List: write a class of your own, over arrays
 * Collections.java:22: the class java.util.List: write a class of your own, over arrays
 * Collections.java:17: the class java.util.HashMap: write a class of your own, over arrays
 * Collections.java:17: the class java.util.Map: write a class of your own, over arrays
 */
import java.util.ArrayList;
import java.util.HashMap;
import java.util.List;
import java.util.Map;

class Collections {
    static Map<String, Object> found = new HashMap<String, Object>();

    public static void main(String[] words) {
        List<Object> list = new ArrayList<Object>();
        list.add(words);
        System.out.println(list.size());
    }
}
