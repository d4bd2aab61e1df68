import java.util.List;
import java.util.TreeMap;
import java.util.concurrent.ConcurrentHashMap;
import java.util.concurrent.CopyOnWriteArrayList;
import java.util.concurrent.CountDownLatch;

/** Users join a room, and each tells all others something; each hears as many lines as there are others. */
class ChatRoom {
    static final class User {
        private final String name;
        private final StringBuffer heard = new StringBuffer();

        User(String name) {
            this.name = name;
        }

        void hear(User from, String line) {
            heard.append("<").append(from.name).append("> ").append(line).append("; ");
        }

        int count() {
            int count = 0;
            for (int at = heard.indexOf("<"); at >= 0; at = heard.indexOf("<", at + 1)) {
                count++;
            }
            return count;
        }
    }

    private final List<User> users = new CopyOnWriteArrayList<User>();
    private final ConcurrentHashMap<String, Integer> told = new ConcurrentHashMap<String, Integer>();

    void tell(User from, String line) {
        for (User user : users) {
            if (user != from) {
                user.hear(from, line);
            }
        }
        told.put(from.name, line.length());
    }

    public static void main(String[] args) throws InterruptedException {
        final ChatRoom room = new ChatRoom();
        final String[] names = {"ann", "bob", "cleo"};
        final CountDownLatch joined = new CountDownLatch(names.length);
        Thread[] threads = new Thread[names.length];
        for (int at = 0; at < names.length; at++) {
            final User user = new User(names[at]);
            threads[at] = new Thread(new Runnable() {
                @Override
                public void run() {
                    room.users.add(user);
                    joined.countDown();
                    try {
                        joined.await();
                    } catch (InterruptedException ended) {
                        return;
                    }
                    room.tell(user, "hello, I am " + user.name);
                }
            });
            threads[at].start();
        }
        for (Thread thread : threads) {
            thread.join();
        }
        int lines = 0;
        for (User user : room.users) {
            lines += user.count();
        }
        System.out.println(room.users.size() + " users heard " + lines + " lines: "
                + new TreeMap<String, Integer>(room.told));
    }
}
