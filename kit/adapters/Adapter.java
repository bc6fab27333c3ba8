import java.io.BufferedReader;
import java.io.IOException;
import java.io.InputStreamReader;
import java.lang.management.GarbageCollectorMXBean;
import java.lang.management.ManagementFactory;
import java.util.List;
import java.util.concurrent.locks.LockSupport;

/**
 * Answers scripts by a collector of a Java runtime, of version 17 or later.
 *
 * <pre>
 * javac -d FOLDER *.java    (Debian: default-jdk-headless)
 * java FLAGS -cp FOLDER Adapter [always] [LITTER]
 * </pre>
 *
 * FLAGS choose the collector, a small heap, and diagnostics such as looking at the heap before and after a collection.
 * After each command LITTER bytes are allocated and dropped (0), so that the collector comes by itself. With
 * {@code always} a thread asks for one collection after the other, and each command waits a little, so that concurrent
 * cycles have many. How an object is laid out is the runtime's to choose, and no released one poisons what it frees.
 *
 * <p>With {@code always} there is also a list that is long to mark, and to which nothing leads but the word behind the
 * slots. So a collector that goes depth first has looked through the slots for long before it comes to what they name.
 * If it has generations, let objects grow old at once, since no barrier of marking matters for young ones.
 *
 * <p>Cycles are those that the collectors' beans count, without their pauses. Whether one is under way is known with
 * {@code always}: it is as long as the thread waits for it. Which phase it is in isn't known. A collector that stops
 * the world has no command within a cycle, and {@code always} is not for it.
 */
public final class Adapter {
    private static final int PAUSE_NANOSECONDS = 100_000;
    private static final int BALLAST = 50_000;

    private final Heap heap = new Heap();
    private final boolean isAlways;
    private final int litter;
    private volatile boolean isUnderWay;
    private volatile long ended;
    private volatile byte[] dropped;
    private long cyclesBefore;
    private long within;

    private Adapter(List<String> words) {
        isAlways = words.contains("always");
        litter = words.stream().filter(word -> word.matches("[0-9]+")).findFirst().map(Integer::valueOf).orElse(0);
    }

    private void collectAlways() {
        for (long count = 1; ; count++) {
            isUnderWay = true;
            System.gc();
            isUnderWay = false;
            ended = count;
        }
    }

    /** Brings the cycle that is under way to its end. If there is none, a whole one runs. */
    private void quantum() {
        if (!isAlways) {
            System.gc();
        }
        for (long seen = ended; isAlways && ended == seen; ) {
            LockSupport.parkNanos(PAUSE_NANOSECONDS);
        }
    }

    private static long cycles() {
        return ManagementFactory.getGarbageCollectorMXBeans().stream()
                .filter(bean -> !bean.getName().endsWith("Pauses"))
                .mapToLong(GarbageCollectorMXBean::getCollectionCount)
                .sum();
    }

    private void beginAnew() {
        heap.clear();
        cyclesBefore = cycles();
        within = 0;
    }

    private void step() {
        if (litter > 0) {
            dropped = new byte[litter];
        }
        if (isAlways) {
            LockSupport.parkNanos(PAUSE_NANOSECONDS);
        }
    }

    private String control(String word) {
        if (word.equals("quantum")) {
            quantum();
        }
        return "cycles " + (cycles() - cyclesBefore) + (isAlways ? " within " + within : "") + " moves yes";
    }

    private String answer(String[] words) {
        if (words[0].equals("*")) {
            return control(words[1]);
        }
        if (isUnderWay) {
            within++;
        }
        String reply = heap.answer(words);
        step();
        return reply;
    }

    private void serve() throws IOException {
        BufferedReader in = new BufferedReader(new InputStreamReader(System.in));
        for (String line = in.readLine(); line != null; line = in.readLine()) {
            String[] words = line.split(" ");
            if (words[0].equals("config")) {
                beginAnew();
            } else {
                System.out.println(answer(words));
            }
        }
    }

    public static void main(String[] words) throws IOException {
        Adapter adapter = new Adapter(List.of(words));
        if (adapter.isAlways) {
            adapter.heap.addBallast(BALLAST);
            Thread collecting = new Thread(adapter::collectAlways);
            collecting.setDaemon(true);
            collecting.start();
        }
        adapter.serve();
    }
}
