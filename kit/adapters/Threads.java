import java.io.BufferedReader;
import java.io.IOException;
import java.io.InputStreamReader;
import java.io.PrintStream;
import java.lang.invoke.MethodHandles;
import java.lang.invoke.VarHandle;
import java.util.ArrayList;
import java.util.Arrays;
import java.util.LinkedHashMap;
import java.util.List;
import java.util.Map;
import java.util.Random;
import java.util.concurrent.CyclicBarrier;
import java.util.concurrent.atomic.AtomicReferenceArray;

/**
 * Does a script with a thread for each of its sessions, over the heap of a Java runtime, and logs when each command began and
 * ended: what `kit/judge --threads` reads.
 *
 * java [FLAGS OF THE RUNTIME] Threads.java [PAUSE [LITTER [FAULT]]]
 *
 * PAUSE: now and then a thread waits up to so many nanoseconds (1,000). LITTER: so many bytes are allocated after each command
 * (0). Fields and the board are loaded and stored volatile, so each command takes place at one moment. Controls are passed over.
 *
 * FAULT spoils it, to try a search: `lost` (a put in 30 isn't done), `stale` (a read in 20 gives what the session read there
 * before), `late` (a write in 10 comes after the session's next command).
 */
public final class Threads {
    private static final int SESSIONS = 8;
    private static final int SLOTS = 16;
    private static final long MOST_FIELDS = 216_000;
    private static final VarHandle REFERENCES = MethodHandles.arrayElementVarHandle(Thing[].class);
    private static final VarHandle NUMBERS = MethodHandles.arrayElementVarHandle(long[].class);
    private static final AtomicReferenceArray<Thing> BOARD = new AtomicReferenceArray<>(SLOTS);
    private static volatile Object sink;

    /** An object of a script. */
    private record Thing(Thing[] references, long[] numbers) {}

    /** A session's command: its word and up to three numbers. */
    private record Command(String text, String word, long[] numbers) {
        static Command of(String[] words) {
            long[] numbers = new long[3];
            for (int i = 2; i < words.length; i++) numbers[i - 2] = Long.parseUnsignedLong(words[i]);
            return new Command(String.join(" ", Arrays.asList(words).subList(1, words.length)), words[1], numbers);
        }
    }

    /** A command that changes nothing, and why. */
    private static final class Refused extends Exception {
        Refused(String why) { super("refused " + why, null, false, false); }
    }

    /** A session, which does its commands in order. */
    private static class Session extends Thread {
        final List<Command> commands = new ArrayList<>();
        final StringBuilder log = new StringBuilder();
        private final int number, pause, litter;
        private final CyclicBarrier start;
        private final Thing[] slots = new Thing[SLOTS];
        private boolean hasEnded;

        Session(int number, int pause, int litter, CyclicBarrier start) {
            this.number = number;
            this.pause = pause;
            this.litter = litter;
            this.start = start;
        }

        private int slot(long number) throws Refused {
            if (Long.compareUnsigned(number, SLOTS) >= 0) throw new Refused("1 bad slot");
            return (int) number;
        }

        private Thing named(int slot) throws Refused {
            if (slots[slot] == null) throw new Refused("2 null");
            return slots[slot];
        }

        private int field(long number, int count) throws Refused {
            if (Long.compareUnsigned(number, count) >= 0) throw new Refused("3 no field");
            return (int) number;
        }

        private Thing made(long references, long numbers) throws Refused {
            if (references + numbers > MOST_FIELDS) throw new Refused("4 too large");
            return new Thing(new Thing[(int) references], new long[(int) numbers]);
        }

        void put(Thing thing, int field, Thing value) { REFERENCES.setVolatile(thing.references, field, value); }
        void write(Thing thing, int index, long number) { NUMBERS.setVolatile(thing.numbers, index, number); }
        long read(Thing thing, int index) { return (long) NUMBERS.getVolatile(thing.numbers, index); }

        private void get(long[] n) throws Refused {
            int to = slot(n[0]);
            Thing thing = named(slot(n[1]));
            slots[to] = (Thing) REFERENCES.getVolatile(thing.references, field(n[2], thing.references.length));
        }

        private void put(long[] n) throws Refused {
            int at = slot(n[0]), from = slot(n[2]);
            Thing thing = named(at);
            put(thing, field(n[1], thing.references.length), slots[from]);
        }

        private long read(long[] n) throws Refused {
            Thing thing = named(slot(n[0]));
            return read(thing, field(n[1], thing.numbers.length));
        }

        private void write(long[] n) throws Refused {
            Thing thing = named(slot(n[0]));
            write(thing, field(n[1], thing.numbers.length), n[2]);
        }

        private String shape(long[] n) throws Refused {
            Thing thing = named(slot(n[0]));
            return "shape " + thing.references.length + " " + thing.numbers.length;
        }

        private void copy(long[] n) throws Refused {
            int to = slot(n[0]);
            slots[to] = slots[slot(n[1])];
        }

        private void take(long[] n) throws Refused {
            int to = slot(n[0]);
            slots[to] = BOARD.get(slot(n[1]));
        }

        private void end() {
            Arrays.fill(slots, null);
            hasEnded = true;
        }

        private String reply(Command command) throws Refused {
            if (number >= SESSIONS) throw new Refused("7 too many sessions");
            if (hasEnded) throw new Refused("6 ended");
            long[] n = command.numbers;
            switch (command.word) {
                case "new" -> { int to = slot(n[0]); slots[to] = made(n[1], n[2]); }
                case "get" -> get(n);
                case "put" -> put(n);
                case "read" -> { return "number " + Long.toUnsignedString(read(n)); }
                case "write" -> write(n);
                case "copy" -> copy(n);
                case "clear" -> slots[slot(n[0])] = null;
                case "same" -> { int left = slot(n[0]); return slots[left] == slots[slot(n[1])] ? "yes" : "no"; }
                case "shape" -> { return shape(n); }
                case "post" -> { int at = slot(n[0]); BOARD.set(at, slots[slot(n[1])]); }
                case "take" -> take(n);
                default -> end();
            }
            return "ok";
        }

        String answer(Command command) {
            try {
                return reply(command);
            } catch (Refused refused) {
                return refused.getMessage();
            } catch (OutOfMemoryError full) {
                return "refused 5 heap full";
            }
        }

        private void wait(Random random) {
            if (pause == 0 || random.nextInt(8) != 0) return;
            long until = System.nanoTime() + random.nextInt(pause);
            while (System.nanoTime() < until) Thread.onSpinWait();
        }

        @Override public void run() {
            Random random = new Random(number);
            try {
                start.await();
            } catch (Exception stopped) {
                throw new IllegalStateException(stopped);
            }
            for (Command command : commands) {
                long begin = System.nanoTime();
                String reply = answer(command);
                long end = System.nanoTime();
                log.append(begin).append(' ').append(end).append(" s").append(number).append(' ').append(command.text);
                log.append(" = ").append(reply).append('\n');
                if (litter > 0) sink = new byte[litter];
                wait(random);
            }
        }
    }

    /** A put in 30 isn't done. */
    private static final class Losing extends Session {
        private int puts;
        Losing(int number, int pause, int litter, CyclicBarrier start) { super(number, pause, litter, start); }
        @Override void put(Thing thing, int field, Thing value) { if (++puts % 30 != 0) super.put(thing, field, value); }
    }

    /** A read in 20 gives what the session read there before. */
    private static final class Stale extends Session {
        private final Map<String, Long> before = new LinkedHashMap<>();
        private int reads;
        Stale(int number, int pause, int litter, CyclicBarrier start) { super(number, pause, litter, start); }
        @Override long read(Thing thing, int index) {
            long now = super.read(thing, index);
            Long old = before.put(System.identityHashCode(thing) + " " + index, now);
            return old != null && ++reads % 20 == 0 ? old : now;
        }
    }

    /** A write in 10 comes after the session's next command. */
    private static final class Late extends Session {
        private Runnable waiting = () -> {};
        private int writes;
        Late(int number, int pause, int litter, CyclicBarrier start) { super(number, pause, litter, start); }
        @Override void write(Thing thing, int index, long number) {
            if (++writes % 10 == 0) waiting = () -> super.write(thing, index, number);
            else super.write(thing, index, number);
        }
        @Override String answer(Command command) {
            Runnable now = waiting;
            waiting = () -> {};
            String reply = super.answer(command);
            now.run();
            return reply;
        }
    }

    private static Session session(String fault, int number, int pause, int litter, CyclicBarrier start) {
        return switch (fault) {
            case "lost" -> new Losing(number, pause, litter, start);
            case "stale" -> new Stale(number, pause, litter, start);
            case "late" -> new Late(number, pause, litter, start);
            default -> new Session(number, pause, litter, start);
        };
    }

    private static Map<String, List<Command>> commandsOf(BufferedReader in) throws IOException {
        Map<String, List<Command>> found = new LinkedHashMap<>();
        in.readLine();
        for (String line; (line = in.readLine()) != null; ) {
            String[] words = line.split(" ");
            if (!words[0].equals("*")) found.computeIfAbsent(words[0], name -> new ArrayList<>()).add(Command.of(words));
        }
        return found;
    }

    public static void main(String[] args) throws Exception {
        int pause = args.length > 0 ? Integer.parseInt(args[0]) : 1_000;
        int litter = args.length > 1 ? Integer.parseInt(args[1]) : 0;
        String fault = args.length > 2 ? args[2] : "";
        Map<String, List<Command>> asked = commandsOf(new BufferedReader(new InputStreamReader(System.in)));
        CyclicBarrier start = new CyclicBarrier(Math.max(1, asked.size()));
        List<Session> sessions = new ArrayList<>();
        for (List<Command> commands : asked.values()) {
            Session made = session(fault, sessions.size(), pause, litter, start);
            made.commands.addAll(commands);
            sessions.add(made);
        }
        sessions.forEach(Thread::start);
        PrintStream out = new PrintStream(System.out, false);
        out.print("log 1\n");
        for (Session session : sessions) {
            session.join();
            out.print(session.log);
        }
        out.flush();
    }
}
