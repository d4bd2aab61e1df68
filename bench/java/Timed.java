import com.sun.management.OperatingSystemMXBean;
import java.lang.management.ManagementFactory;
import java.lang.management.ThreadMXBean;
import java.lang.reflect.Method;

/**
 * Calls the main of the class that the first word names, once and then as often as the second word says, and prints on
 * standard error the least time of the processor, in nanoseconds, that the calling thread took for one of the latter.
 * Where there is a third word, it is what all threads together took, on average: that clock goes by steps of 10 ms.
 */
public class Timed {
    static final ThreadMXBean THREAD = ManagementFactory.getThreadMXBean();
    static final OperatingSystemMXBean PROCESS =
        (OperatingSystemMXBean) ManagementFactory.getOperatingSystemMXBean();

    static long now(boolean isOfAll) {
        return isOfAll ? PROCESS.getProcessCpuTime() : THREAD.getCurrentThreadCpuTime();
    }

    static long nanoseconds(Method main, boolean isOfAll) throws Exception {
        Object given = new String[0];
        long begin = now(isOfAll);
        main.invoke(null, given);
        return now(isOfAll) - begin;
    }

    public static void main(String[] words) throws Exception {
        Method main = Class.forName(words[0]).getMethod("main", String[].class);
        boolean isOfAll = words.length > 2;
        nanoseconds(main, isOfAll);
        int runs = Integer.parseInt(words[1]);
        long least = Long.MAX_VALUE;
        long sum = 0;
        for (int run = 0; run < runs; run++) {
            long taken = nanoseconds(main, isOfAll);
            least = Math.min(least, taken);
            sum += taken;
        }
        System.err.println((isOfAll ? sum / runs : least) + " nanoseconds");
    }
}
