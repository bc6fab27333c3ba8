import java.util.Arrays;
import java.util.HashMap;
import java.util.Map;

/** What scripts speak of: slots that name objects. It refuses what is to be refused. */
final class Heap {
    private static final int SESSIONS = 8;
    private static final int SLOTS = 16;
    private static final int BALLAST = (SESSIONS + 1) * SLOTS;
    private static final int MOST_FIELDS = 216_000;

    /** Of each command what its words are: a slot of the session (s), one that has to name an object (o), a slot of the
     * board (b), a reference (r) or a number (n) of that object, or anything else (-). */
    private static final Map<String, String> FORMS = Map.ofEntries(
            Map.entry("new", "s--"), Map.entry("get", "sor"), Map.entry("put", "ors"), Map.entry("read", "on"),
            Map.entry("write", "on-"), Map.entry("copy", "ss"), Map.entry("clear", "s"), Map.entry("same", "ss"),
            Map.entry("shape", "o"), Map.entry("post", "bs"), Map.entry("take", "sb"), Map.entry("end", ""));

    /** A command is refused. Nothing was changed. */
    private static final class Refused extends Exception {
        private static final long serialVersionUID = 1;

        Refused(String reason) {
            super("refused " + reason);
        }
    }

    /** The slots of the sessions, those of the board, and the ballast. */
    private final Item[] roots = new Item[BALLAST + 1];
    private final Map<String, Integer> names = new HashMap<>();
    private final boolean[] hasEnded = new boolean[SESSIONS];

    /** All slots become empty, and no name is known. */
    void clear() {
        Arrays.fill(roots, 0, BALLAST, null);
        names.clear();
        Arrays.fill(hasEnded, false);
    }

    /** Puts a list behind the slots. */
    void addBallast(int count) {
        for (int length = 0; length < count; length++) {
            Item head = new Item(1, 0);
            head.store(0, roots[BALLAST]);
            roots[BALLAST] = head;
        }
    }

    /** The reply to a command. */
    String answer(String[] words) {
        try {
            return command(words);
        } catch (Refused refused) {
            return refused.getMessage();
        }
    }

    /** Turns the slots of a command into roots. */
    private static void findRoots(int session, String form, long[] operands) throws Refused {
        for (int i = 0; i < form.length(); i++) {
            if ("sob".indexOf(form.charAt(i)) < 0) {
                continue;
            }
            if (operands[i] >= SLOTS) {
                throw new Refused("1 bad slot");
            }
            operands[i] += (form.charAt(i) == 'b' ? SESSIONS : session) * SLOTS;
        }
    }

    /** Refuses a command without the object, or without the field of it, that its form asks for. */
    private void requireObject(String form, long[] operands) throws Refused {
        if (form.indexOf('o') < 0) {
            return;
        }
        Item item = roots[(int) operands[form.indexOf('o')]];
        if (item == null) {
            throw new Refused("2 null");
        }
        requireField(form.indexOf('r'), item.references, operands);
        requireField(form.indexOf('n'), item.numbers.length, operands);
    }

    private static void requireField(int place, int count, long[] operands) throws Refused {
        if (place >= 0 && operands[place] >= count) {
            throw new Refused("3 no field");
        }
    }

    private static Item made(long references, long numbers) throws Refused {
        if (references + numbers > MOST_FIELDS) {
            throw new Refused("4 too large");
        }
        try {
            return new Item((int) references, (int) numbers);
        } catch (OutOfMemoryError error) {
            throw new Refused("5 heap full");
        }
    }

    private void end(int session) {
        Arrays.fill(roots, session * SLOTS, (session + 1) * SLOTS, null);
        hasEnded[session] = true;
    }

    /** Does a command whose slots are roots. Returns its reply. */
    private String perform(int session, String word, long[] operands) throws Refused {
        int a = (int) operands[0];
        int b = (int) operands[1];
        int c = (int) operands[2];
        switch (word) {
            case "new" -> roots[a] = made(operands[1], operands[2]);
            case "get" -> roots[a] = roots[b].load(c);
            case "put" -> roots[a].store(b, roots[c]);
            case "write" -> roots[a].numbers[b] = operands[2];
            case "clear" -> roots[a] = null;
            case "end" -> end(session);
            default -> roots[a] = roots[b];
        }
        return "ok";
    }

    /** The reply to a command that only looks, or else does something. */
    private String reply(int session, String word, long[] operands) throws Refused {
        Item item = roots[(int) operands[0]];
        return switch (word) {
            case "read" -> "number " + Long.toUnsignedString(item.numbers[(int) operands[1]]);
            case "same" -> item == roots[(int) operands[1]] ? "yes" : "no";
            case "shape" -> "shape " + item.references + " " + item.numbers.length;
            default -> perform(session, word, operands);
        };
    }

    /** Refuses a command by the first reason that holds, or does it. */
    private String command(String[] words) throws Refused {
        int session = names.computeIfAbsent(words[0], name -> Math.min(SESSIONS, names.size()));
        long[] operands = new long[3];
        for (int i = 2; i < words.length; i++) {
            operands[i - 2] = Long.parseUnsignedLong(words[i]);
        }
        if (session == SESSIONS) {
            throw new Refused("7 too many sessions");
        }
        if (hasEnded[session]) {
            throw new Refused("6 ended");
        }
        String form = FORMS.get(words[1]);
        findRoots(session, form, operands);
        requireObject(form, operands);
        return reply(session, words[1], operands);
    }
}
