import java.util.ArrayList;
import java.util.Collections;
import java.util.Comparator;
import java.util.HashMap;
import java.util.List;
import java.util.Map;
import java.util.TreeMap;

/** How often each word of a text stands there, by the alphabet and by how often. */
class CountedWords {
    static final String TEXT = "How much wood would a woodchuck chuck, if a woodchuck could chuck wood? "
            + "He would chuck, he would, as much as he could, and chuck as much wood as a woodchuck would.";

    static List<String> words(String text) {
        List<String> found = new ArrayList<String>();
        StringBuilder word = new StringBuilder();
        for (int at = 0; at <= text.length(); at++) {
            char next = at < text.length() ? text.charAt(at) : ' ';
            if (Character.isLetter(next)) {
                word.append(Character.toLowerCase(next));
            } else if (word.length() > 0) {
                found.add(word.toString());
                word.setLength(0);
            }
        }
        return found;
    }

    public static void main(String[] args) {
        Map<String, Integer> counts = new HashMap<String, Integer>();
        for (String word : words(TEXT)) {
            Integer before = counts.get(word);
            counts.put(word, before == null ? 1 : before + 1);
        }
        System.out.println(counts.size() + " words: " + new TreeMap<String, Integer>(counts));
        List<Map.Entry<String, Integer>> entries = new ArrayList<Map.Entry<String, Integer>>(counts.entrySet());
        Collections.sort(entries, new Comparator<Map.Entry<String, Integer>>() {
            @Override
            public int compare(Map.Entry<String, Integer> a, Map.Entry<String, Integer> b) {
                int order = b.getValue().compareTo(a.getValue());
                return order != 0 ? order : a.getKey().compareTo(b.getKey());
            }
        });
        for (Map.Entry<String, Integer> entry : entries.subList(0, 5)) {
            StringBuilder bar = new StringBuilder();
            for (int at = 0; at < entry.getValue(); at++) {
                bar.append('#');
            }
            System.out.println(bar + " " + entry.getKey());
        }
    }
}
