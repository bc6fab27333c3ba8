import java.lang.invoke.MethodHandles;
import java.lang.invoke.VarHandle;
import java.util.Arrays;

/**
 * An object of a script. Two references are its fields, and the others lie in an array. Loads and stores take turns at
 * the ways that the runtime has, by the number of the reference: each has barriers of its own.
 */
final class Item {
    private static final int MOST_CLONED = 256;
    private static final VarHandle SECOND = handle("second");
    private static final VarHandle REST = MethodHandles.arrayElementVarHandle(Item[].class);

    final int references;
    final long[] numbers;
    private Item[] rest;
    private Item first;
    private Item second;

    Item(int references, int numbers) {
        this.references = references;
        this.numbers = new long[numbers];
        this.rest = new Item[Math.max(0, references - 2)];
    }

    private static VarHandle handle(String field) {
        try {
            return MethodHandles.lookup().findVarHandle(Item.class, field, Item.class);
        } catch (ReflectiveOperationException error) {
            throw new ExceptionInInitializerError(error);
        }
    }

    Item load(int reference) {
        return switch (reference) {
            case 0 -> first;
            case 1 -> (Item) SECOND.getVolatile(this);
            default -> loadOfRest(reference - 2);
        };
    }

    private Item loadOfRest(int at) {
        return switch (at % 3) {
            case 0 -> rest[at];
            case 1 -> (Item) REST.getAcquire(rest, at);
            default -> Arrays.copyOfRange(rest, at, at + 1)[0];
        };
    }

    void store(int reference, Item value) {
        switch (reference) {
            case 0 -> first = value;
            case 1 -> SECOND.getAndSet(this, value);
            default -> storeInRest(reference - 2, value);
        }
    }

    private void storeInRest(int at, Item value) {
        switch (at % 4) {
            case 0 -> rest[at] = value;
            case 1 -> REST.compareAndSet(rest, at, rest[at], value);
            case 2 -> System.arraycopy(new Item[] {value}, 0, rest, at, 1);
            default -> copyOnWrite(at, value);
        }
    }

    private void copyOnWrite(int at, Item value) {
        Item[] written = rest.length <= MOST_CLONED ? rest.clone() : rest;
        written[at] = value;
        rest = written;
    }
}
