import listset.Judge;
import java.nio.file.Files;
import java.nio.file.Path;
import java.util.HashSet;
import java.util.Map;
import java.util.Set;
import java.util.concurrent.ConcurrentHashMap;
import java.util.concurrent.ConcurrentSkipListSet;
import java.util.concurrent.ThreadLocalRandom;
import java.util.concurrent.atomic.AtomicInteger;
import java.util.concurrent.locks.LockSupport;
import java.util.function.BooleanSupplier;

/**
 * Judges the set that the variable SET names, with the options in HOW, such as "threads=4 runs=2". Judges the set once,
 * or TESTS times. Prints the result and its kind.
 */
final class Sets {
    private Sets() { }

    /** Returns the name of the set's bug in the variable SET. `E later` stands for the bug E if the file `judged`
     * exists, otherwise for `finds all`. */
    private static String error() {
        String name = System.getenv("SET");
        if (!name.endsWith(" later")) return name;
        return Files.exists(Path.of("judged")) ? name.substring(0, name.length() - " later".length()) : "finds all";
    }

    /** A set that is correct except for the bug that {@code error} returns. */
    static final class Named extends ConcurrentSkipListSet<Integer> {
        private static final long serialVersionUID = 1;
        private final String is = error();
        private final AtomicInteger calls = new AtomicInteger();
        private final Map<Object, Set<Integer>> parts = new ConcurrentHashMap<>();
        private static final AtomicInteger MADE = new AtomicInteger();

        Named() {
            if (is.equals("opens")) addAll(Set.of(1, 3));
            if (is.equals("not made")) throw new IllegalStateException("no room");
            if (is.equals("ends") && MADE.incrementAndGet() > 1) new Thread(this::end).start(); // (the first set only shows that the child JVM can create a set)
        }

        private void end() {
            LockSupport.parkNanos(ThreadLocalRandom.current().nextInt(40_000_000));
            Runtime.getRuntime().halt(3);
        }

        /** Returns the key that the set uses instead of {@code key}. With "collides", the set uses the remainder modulo
         * 64, so some different keys are treated as one key. */
        private Integer place(Object key) { return is.equals("collides") ? (Integer) key % 64 : (Integer) key; }

        /** Returns the set that contains {@code key}. With the bug "first use", the first call with {@code key} creates
         * a set for {@code key} alone, and two overlapping calls can both create one. */
        private Set<Integer> part(Object key) {
            Set<Integer> found = parts.get(key);
            if (found == null) parts.put(key, found = new ConcurrentSkipListSet<>());
            return found;
        }

        /** Makes a call. With "not known" or "again", loses one reply in fifty. With "not known", the outcome of the
         * call is then unknown; with "again", the call is repeated. */
        private boolean called(BooleanSupplier call) {
            boolean reply = call.getAsBoolean();
            if (!is.equals("not known") && !is.equals("again") || calls.incrementAndGet() % 50 > 0) return reply;
            if (is.equals("not known")) throw new Judge.NotKnown();
            return call.getAsBoolean();
        }

        /** Hangs, ends the JVM, throws or naps during a later remove. The variable SET selects which. */
        private synchronized void stop() {
            int due = is.equals("crashes late") ? 10_000 : 30;
            if (calls.incrementAndGet() != due) return;
            if (is.equals("throws")) throw new IllegalStateException("no memory");
            if (is.equals("naps")) LockSupport.parkNanos(1_200_000_000L);
            if (is.startsWith("crashes") || is.equals("exits")) Runtime.getRuntime().halt(3);
            while (is.equals("hangs")) LockSupport.park();
        }

        @Override public boolean add(Integer key) {
            if (is.equals("first use")) return part(key).add(key);
            if (!is.equals("check then act")) return called(() -> super.add(place(key)));
            boolean isNew = !contains(key);
            Thread.yield();
            return isNew && (super.add(key) || true);
        }

        @Override public boolean remove(Object key) {
            if (is.equals("first use")) return part(key).remove(key);
            if (is.matches("hangs|naps|crashes.*|exits|throws")) stop();
            return called(() -> super.remove(place(key)));
        }

        @Override public boolean contains(Object key) {
            if (is.equals("loses contains")) throw new Judge.NotKnown();
            if (is.equals("finds all") || is.equals("finds all late") && calls.incrementAndGet() > 8000) return true;
            return is.equals("first use") ? part(key).contains(key) : super.contains(place(key));
        }
    }

    /** A set whose subclasses inherit add, remove and contains. */
    abstract static class Inherited {
        final Set<Integer> keys = new ConcurrentSkipListSet<>();

        abstract boolean finds(Integer key);

        public boolean add(Integer key) { return keys.add(key); }

        public boolean remove(Integer key) { return keys.remove(key); }

        public boolean contains(Integer key) { return finds(key); }
    }

    static final class First extends Inherited {
        @Override boolean finds(Integer key) { return keys.contains(key); }
    }

    static final class Second extends Inherited {
        @Override boolean finds(Integer key) { return keys.contains(key); }
    }

    /** A set that finds every key. */
    static final class Third extends Inherited {
        @Override boolean finds(Integer key) { return true; }
    }

    private static Judge.Verdict judged(String set, Judge.Options how) {
        Object here = new Object();
        return switch (set) {
            case "texts" -> Judge.judge(ConcurrentSkipListSet<String>::new, it -> "key " + it, Set::add, Set::remove, Set::contains, how);
            case "twice" -> Judge.judge(HashSet<String>::new, it -> "key " + it / 2, Set::add, Set::remove, Set::contains, how);
            case "not passed on" -> Judge.judge(() -> new ConcurrentSkipListSet<>(here.hashCode() == 0 ? Set.of(1) : Set.of()), how);
            case "inherits first" -> Judge.judge(First::new, First::add, First::remove, First::contains, how);
            case "inherits second" -> Judge.judge(Second::new, Second::add, Second::remove, Second::contains, how);
            case "inherits and finds all" -> Judge.judge(Third::new, Third::add, Third::remove, Third::contains, how);
            default -> Judge.judge(Named::new, how);
        };
    }

    private static Judge.Options howOf(String words) {
        Judge.Options how = new Judge.Options();
        int[] shares = {1, 1, 1};
        for (String word : words.isEmpty() ? new String[0] : words.split(" ")) {
            String name = word.substring(0, word.indexOf('=')), given = word.substring(name.length() + 1);
            int number = name.equals("record") ? 0 : Integer.parseInt(given);
            how = switch (name) {
                case "threads" -> how.withThreads(number);
                case "calls" -> how.withCalls(number);
                case "keys" -> how.withKeys(number);
                case "pauses" -> how.withPauses(number);
                case "runs" -> how.withRuns(number);
                case "seed" -> how.withSeed(number);
                case "seconds" -> how.withSeconds(number);
                case "within" -> how.withWithin(number);
                case "at_least" -> how.withAtLeast(number);
                case "own_process" -> how.withOwnProcess(number == 1);
                case "opens_with_keys" -> how.withOpeningKeys(number == 1);
                case "record" -> how.withRecord(given);
                default -> {
                    shares[name.equals("adds") ? 0 : name.equals("removes") ? 1 : 2] = number;
                    yield how.withShares(shares[0], shares[1], shares[2]);
                }
            };
        }
        return how;
    }

    public static void main(String[] none) {
        int tests = Integer.parseInt(System.getenv().getOrDefault("TESTS", "1"));
        for (int i = 0; i < tests; i++) print();
    }

    private static void print() {
        String kind = "ok", text;
        try {
            text = judged(System.getenv("SET"), howOf(System.getenv("HOW"))).toString();
        } catch (Judge.Failed | Judge.TooFew | Judge.NoVerdict why) {
            kind = why instanceof Judge.NotLinearizable ? "refused" : why instanceof Judge.CutShort ? "cut short" : why instanceof Judge.TooFew ? "too few" : "none";
            text = why.getMessage();
        }
        System.out.println("verdict: " + kind + "\n" + text);
    }
}
