import java.util.ArrayDeque;
import java.util.ArrayList;
import java.util.Collections;
import java.util.HashMap;
import java.util.LinkedList;
import java.util.List;
import java.util.Map;
import java.util.Queue;
import java.util.TreeMap;
import java.util.TreeSet;

/** The shortest ways between towns, by a search in breadth over a graph. */
class Routes {
    private final Map<String, TreeSet<String>> roads = new HashMap<String, TreeSet<String>>();

    private TreeSet<String> from(String town) {
        TreeSet<String> found = roads.get(town);
        if (found == null) {
            found = new TreeSet<String>();
            roads.put(town, found);
        }
        return found;
    }

    Routes road(String one, String other) {
        from(one).add(other);
        from(other).add(one);
        return this;
    }

    List<String> way(String start, String end) {
        Map<String, String> cameFrom = new HashMap<String, String>();
        Queue<String> open = new ArrayDeque<String>();
        cameFrom.put(start, null);
        open.add(start);
        while (!open.isEmpty() && !cameFrom.containsKey(end)) {
            String town = open.remove();
            for (String next : from(town)) {
                if (!cameFrom.containsKey(next)) {
                    cameFrom.put(next, town);
                    open.add(next);
                }
            }
        }
        LinkedList<String> way = new LinkedList<String>();
        if (!cameFrom.containsKey(end)) {
            return way;
        }
        for (String town = end; town != null; town = cameFrom.get(town)) {
            way.addFirst(town);
        }
        return way;
    }

    public static void main(String[] args) {
        Routes routes = new Routes();
        routes.road("Basel", "Olten").road("Olten", "Bern").road("Olten", "Luzern").road("Bern", "Thun");
        routes.road("Luzern", "Thun").road("Thun", "Spiez").road("Bern", "Fribourg").road("Como", "Chiasso");
        System.out.println(new TreeMap<String, TreeSet<String>>(routes.roads));
        String[][] asked = {{"Basel", "Spiez"}, {"Fribourg", "Luzern"}, {"Bern", "Como"}, {"Thun", "Thun"}};
        for (String[] pair : asked) {
            List<String> way = routes.way(pair[0], pair[1]);
            List<String> back = new ArrayList<String>(way);
            Collections.reverse(back);
            System.out.println(pair[0] + " to " + pair[1] + ": " + (way.isEmpty() ? "no way" : way + ", back " + back));
        }
    }
}
