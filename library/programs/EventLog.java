import java.util.ArrayList;
import java.util.Collections;
import java.util.HashMap;
import java.util.List;
import java.util.Map;

/** Threads write events into a log that they share, which is shown in order. */
class EventLog {
    static final class Event implements Comparable<Event> {
        final String sender;
        final int number;
        final String text;

        Event(String sender, int number, String text) {
            this.sender = sender;
            this.number = number;
            this.text = text;
        }

        @Override
        public int compareTo(Event other) {
            int order = sender.compareTo(other.sender);
            return order != 0 ? order : number - other.number;
        }

        @Override
        public String toString() {
            return sender + "#" + number + ": " + text;
        }
    }

    static final class Sender extends Thread {
        private final List<Event> log;
        private final String name;

        Sender(List<Event> log, String name) {
            this.log = log;
            this.name = name;
        }

        @Override
        public void run() {
            for (int number = 1; number <= 3; number++) {
                log.add(new Event(name, number, number == 3 ? "done" : "step " + number + " of 2"));
            }
        }
    }

    public static void main(String[] args) throws InterruptedException {
        List<Event> log = Collections.synchronizedList(new ArrayList<Event>());
        Sender[] senders = {new Sender(log, "disk"), new Sender(log, "net"), new Sender(log, "screen")};
        for (Sender sender : senders) {
            sender.start();
        }
        Map<String, Integer> last = new HashMap<String, Integer>();
        for (Sender sender : senders) {
            sender.join();
        }
        for (Event event : log) {
            Integer before = last.put(event.sender, event.number);
            if (before != null && before >= event.number) {
                System.out.println("out of order: " + event);
            }
        }
        Collections.sort(log);
        for (Event event : log) {
            System.out.println(event);
        }
        System.out.println(log.size() + " events, last ones " + last);
    }
}
