package listset;

import java.io.ByteArrayInputStream;
import java.io.ByteArrayOutputStream;
import java.io.File;
import java.io.IOException;
import java.io.ObjectInputStream;
import java.io.ObjectOutputStream;
import java.io.Serializable;
import java.lang.invoke.MethodHandles;
import java.lang.invoke.VarHandle;
import java.net.URISyntaxException;
import java.nio.ByteBuffer;
import java.nio.ByteOrder;
import java.nio.channels.FileChannel;
import java.nio.charset.StandardCharsets;
import java.nio.file.Files;
import java.nio.file.Path;
import java.nio.file.StandardOpenOption;
import java.util.ArrayList;
import java.util.Arrays;
import java.util.Comparator;
import java.util.HashMap;
import java.util.List;
import java.util.Map;
import java.util.Set;
import java.util.SplittableRandom;
import java.util.concurrent.atomic.AtomicBoolean;
import java.util.concurrent.atomic.AtomicReference;
import java.util.concurrent.locks.LockSupport;
import java.util.function.BiPredicate;
import java.util.function.BooleanSupplier;
import java.util.function.Consumer;
import java.util.function.IntFunction;
import java.util.function.Supplier;
import java.util.regex.Matcher;
import java.util.regex.Pattern;
import java.util.stream.Collectors;
import java.util.stream.Stream;

/**
 * Tests whether your own concurrent set is linearizable, in one line of a test (Java 16):
 *
 * <pre>{@code @Test void isLinearizable() { System.out.println(Judge.judge(MySet::new)); }}</pre>
 *
 * <p>MySet is a {@code Set<Integer>}; a set of any other type is called through three method references. Threads call
 * new sets. The start and the end of each call are recorded. {@code listset judge FILE} decides whether some order of
 * the calls explains their replies.
 *
 * <p>The environment variable LISTSET names the program {@code listset}; if LISTSET is not set, {@code listset} in PATH
 * is used. If LISTSET names a listset.js, node runs the file. If LISTSET is {@code skip}, the test throws the exception
 * with which JUnit or TestNG skips a test.
 *
 * <p>The sets are called in a separate JVM, if the method references can be sent to it and a set can be created in it.
 * If a set ends the separate JVM or hangs, the calls made so far are judged.
 */
public final class Judge {
    private static final String[] WORDS = {"add", "remove", "contains"};
    private static final int MOST_SHOWN = 16; // the maximum number of pending calls in a message
    private static final long SECOND = 1_000_000_000L; // nanoseconds

    /**
     * The sizes of a run: the number of threads, of new sets used one after another, of calls per thread and set, and
     * of keys. The keys are the multiples of {@code times}. Threads wait for each other after every MEET calls or, if
     * {@code meetsOnce}, only at the beginning.
     */
    private record Shape(String name, int threads, int sets, int calls, int keys, int times, boolean meetsOnce) {
        Shape(String name, int threads, int sets, int calls, int keys, int times) { this(name, threads, sets, calls, keys, times, false); }

        /** Returns the same sizes, but with the keys 0, 1, 2 .. */
        Shape withNumbers() { return new Shape(name, threads, sets, calls, keys, 1, meetsOnce); }

        /** Returns the sizes of a run with LONGER times as many calls. A run of several sets gets more sets. */
        Shape longer() { return new Shape(name, threads, sets > 1 ? LONGER * sets : 1, sets > 1 ? calls : LONGER * calls, keys, times, meetsOnce); }

        long allCalls() { return (long) threads * sets * calls; }

        /** Returns the maximum number of calls of a thread between two saves of the recording. */
        int rows() { return Math.min(calls, PART / threads); }

        int parts() { return (calls - 1) / rows() + 1; }

        int rounds() { return sets * parts(); }
    }

    private record Limits(String name, long least, long most) { }

    // PART and MEET are numbers of calls. PATIENCE is in seconds.
    // The lines below are made of words.json by judge/make_words.
    private static final Shape[] PRESETS = {new Shape("few keys", 4, 1, 5000, 4, 1), new Shape("fresh sets", 4, 40, 10, 4, 1), new Shape("multiples of 64", 4, 1, 5000, 8, 64), new Shape("one key", 3, 1, 5000, 1, 1), new Shape("sets that grow", 4, 20, 125, 64, 1), new Shape("many keys", 4, 1, 2500, 1000, 1), new Shape("multiples of 1,000", 8, 1, 2500, 8, 1000)};
    private static final Limits[] RANGES = {new Limits("threads", 1, 64), new Limits("threads times calls", 1, 1000000000), new Limits("keys", 1, 1048576), new Limits("pauses", 0, 100), new Limits("runs", 1, 1000000), new Limits("seconds", 1, 3600), new Limits("within", 1, 604800), new Limits("at_least", 0, 100), new Limits("the sum of shares", 1, 1000000)};
    private static final int PART = 20000, LONGEST = 100, HOT = 4, ENOUGH = 5, HARDER = 2, PATIENCE = 10, MEET = 250, AWAKE = 300000, WITHIN = 60, APART = 100, FURTHER = 4, FURTHER_FOR = 3, FURTHER_MOST = 10, CLEAR = 10, LONGER = 4;
    private static final String OK = "ok: %s calls, and %s of them overlapped a change of their key";
    private static final String FEW = "few calls overlapped, so ok means little: %s calls, and %s of them overlapped a change of their key";
    private static final String FEWER_RUNS = "; only %s of %s runs were made, because no run begins after %s s (option within)";
    private static final String TOO_FEW = "too few calls overlapped: %s of %s calls overlapped a change of their key, and at_least requires %s of 100. If the machine is busy, raise within. Otherwise use fewer keys or more threads";
    private static final String FAILED_RUN = "%s\n\nseed %s (%s), %s threads%s; recorded in %s%s; judge: %s";
    private static final String RANGE = "%s is %s, but must be %s to %s";
    private static final String TWICE = "the key function returns %s for %s and for %s, but must return a different key for each number";
    private static final String HUNG = "the set hung: no call began or ended for %s s";
    private static final String ENDED_SO = "the set ended its process with status %s";
    private static final String THREW = "a call of the set failed: %s";
    private static final String NOT_MADE = "the set could not be created: %s";
    private static final String NO_OPENING = "contains of an opening key had no known outcome in %s calls";
    private static final String UNDER_WAY = "%s\npending:%s\nbefore that: %s";
    private static final String EXPLAINED = "some order explains the calls";
    private static final String PASSED_BEFORE = "; passed before: %s";
    private static final String REFUSED_OF = "; longer runs followed the first refusal: %s of %s runs were refused";
    private static final String PENDING_CALL = "\n  thread %s: %s %s%s, begun at moment %s";
    private static final String IS_KEY = " (key %s of the recording)";
    private static final String KEY_IS = "; key %s above means key %s";
    private static final String IN_SET = ", in set number %s of those that the run created";
    private static final String MADE_HARDER = "; with changed sizes, because few calls overlapped";
    private static final String NO_FOLDER = "no file can be written in %s: set record to another folder";
    private static final String NO_RECORD = "the variable LISTSET_RECORD is %s, but no file can be written there: set it to another folder";
    private static final String NO_TEMPORARY = "no file can be written in %s, the folder for temporary files: set the variable TMPDIR (in Java the property java.io.tmpdir) to another folder";
    private static final String NO_JUDGE = "no judge was found: %s cannot be run. Copy the file judge/listset.js of this judge's repository, and set LISTSET to its path (Node 18 runs it); or put the program listset in PATH. LISTSET=skip skips this test";
    private static final String NO_SCRIPT = "the variable LISTSET is %s, but no file is at %s: set LISTSET to the full path of listset.js";
    private static final String NO_NODE = "no judge was found: LISTSET is %s, which needs Node 18 or newer, but no node is in PATH";
    private static final String OLD_NODE = "node is %s, but %s needs Node 18 or newer";
    private static final String IS_FOLDER = "%s is a folder: set LISTSET to the program in it";
    private static final String NO_VERDICT = "%s printed no verdict, but: %s. Use a newer listset";
    private static final String AND_MORE = "\n  and %s more";
    private static final String ALONE = ", the calls that show it in %s";
    private static final String SKIPPED = "skipped: LISTSET is skip";
    private static final String NOT_IN_CI = "LISTSET is skip, but the variable CI is set: in CI no test is skipped";
    private static final String NUMBER = "the variable %s is %s, but must be a number from %s to %s";
    // end of what is made

    private Judge() { }

    /**
     * Options of a test. All of them are checked before the first set is created. The runs of a test cycle through
     * seven presets (built-in numbers of threads, calls and keys). A {@code with} method returns a changed copy and
     * leaves the original options unchanged.
     */
    public static final class Options implements Serializable, Cloneable {
        private static final long serialVersionUID = 1;
        private int threads, calls, keys, pauses = 20, runs = 20, seconds = 30, within = WITHIN, atLeast, adds = 1, removes = 1, finds = 1;
        private long seed = 1;
        private boolean ownProcess = true, opensWithKeys;
        private String record;

        /** Sets the number of threads that call a set at the same time: 1 to 64. 0 selects the preset's number. */
        public Options withThreads(int it) { return with(made -> made.threads = it); }

        /**
         * Sets the number of calls of each thread: at least 1, and at most 1,000,000,000 for all threads together. 0
         * selects the preset's number. After every 20,000 calls of all threads together, the threads wait until the
         * calls are written to the recording's file.
         */
        public Options withCalls(int it) { return with(made -> made.calls = it); }

        /**
         * Sets the number of keys: 1 to 1,048,576. 0 selects the preset's number. With more than eight keys, half of the
         * calls use the first four.
         */
        public Options withKeys(int it) { return with(made -> made.keys = it); }

        /**
         * Sets how often a thread pauses before a call, in percent: 0 to 100. A pause lasts at most a few microseconds.
         * Unless {@code it} is 0, threads in the set's own JVM are also interrupted during calls.
         */
        public Options withPauses(int it) { return with(made -> made.pauses = it); }

        /** Sets the number of runs: 1 to 1,000,000. A run calls one set, or several new sets one after another. */
        public Options withRuns(int it) { return with(made -> made.runs = it); }

        /**
         * Sets the random seed for the calls, keys and pauses of the first run. Each later run uses the next seed. If the
         * first seed is not 1, no further runs follow a refusal.
         */
        public Options withSeed(long it) { return with(made -> made.seed = it); }

        /**
         * Sets the time limit for a run that hangs, in seconds: 1 to 3,600. A run is cut short if no call begins or
         * ends for this long.
         */
        public Options withSeconds(int it) { return with(made -> made.seconds = it); }

        /** Sets the time limit for the test, in seconds: 1 to 604,800. No run starts after the limit. */
        public Options withWithin(int it) { return with(made -> made.within = it); }

        /**
         * Sets the minimum percentage of calls that must overlap a call that adds or removes the same key. Otherwise
         * the test fails with {@link TooFew}.
         */
        public Options withAtLeast(int it) { return with(made -> made.atLeast = it); }

        /** Sets the relative frequencies of add, remove and contains. */
        public Options withShares(int add, int remove, int contains) {
            return with(made -> { made.adds = add; made.removes = remove; made.finds = contains; });
        }

        /**
         * Sets whether sets are called in a separate JVM. If not, sets are called in the test's JVM. The JVM then
         * crashes or hangs with a set. Useful for debuggers and coverage.
         */
        public Options withOwnProcess(boolean it) { return with(made -> made.ownProcess = it); }

        /** Sets whether contains is called for each key before all other calls to record the opening keys. */
        public Options withOpeningKeys(boolean it) { return with(made -> made.opensWithKeys = it); }

        /**
         * Sets the folder for the recordings of all runs. If null, only the recording of a failed run is kept, in the
         * folder that the variable LISTSET_RECORD names, or else in java.io.tmpdir.
         */
        public Options withRecord(String it) { return with(made -> made.record = it); }

        private Options with(Consumer<Options> change) {
            try {
                Options made = (Options) clone();
                change.accept(made);
                return made;
            } catch (CloneNotSupportedException never) {
                throw new AssertionError(never);
            }
        }

        private void check() {
            long t = Math.max(threads, 1), c = Math.max(calls, 1);
            long shares = Math.min(adds, Math.min(removes, finds)) < 0 ? -1 : (long) adds + removes + finds;
            long[] given = {threads == 0 ? 1 : threads, calls < 0 ? calls : t * c, keys == 0 ? 1 : keys, pauses, runs, seconds, within, atLeast, shares};
            for (int i = 0; i < RANGES.length; i++) {
                Limits its = RANGES[i];
                if (given[i] < its.least || given[i] > its.most) throw new NoVerdict(RANGE.formatted(its.name, given[i], its.least, its.most));
            }
        }

        /** Returns the preset that belongs to {@code seed}, modified by the options. */
        private Shape shapeOf(long seed) {
            Shape it = PRESETS[(int) Math.floorMod(seed - 1, (long) PRESETS.length)];
            int ofSet = calls > 0 ? calls : opensWithKeys ? it.sets * it.calls : it.calls;
            return new Shape(it.name, threads > 0 ? threads : it.threads, calls > 0 || opensWithKeys ? 1 : it.sets, ofSet,
                keys > 0 ? keys : it.keys, keys > 0 ? 1 : it.times);
        }

        /**
         * Applies the environment variables. If LISTSET_SECONDS is set, runs are repeated for that many seconds, with
         * seeds that count up from the current time. LISTSET_SEED is the first seed.
         */
        private Options byEnvironment() {
            int seconds = (int) numberOf("LISTSET_SECONDS", 0, 1, RANGES[6].most);
            Options it = seconds == 0 ? this : withWithin(seconds).withRuns((int) RANGES[4].most).withSeed(System.currentTimeMillis() / 1000);
            return it.withSeed(numberOf("LISTSET_SEED", it.seed, 0, 0xffff_ffffL));
        }

        /** Returns whether the test repeats a run: its seed is from LISTSET_SEED, or the option for the seed is not 1. */
        private boolean isReplay() {
            return isSet("LISTSET_SEED") || seed != new Options().seed && !isSet("LISTSET_SECONDS");
        }

        /**
         * Returns the part of the message about runs that were not performed because time ran out. Returns an empty
         * string if all runs were performed, or if LISTSET_SECONDS is set (the number of runs is then not fixed).
         */
        private String fewerRuns(long made) {
            return made == runs || isSet("LISTSET_SECONDS") ? "" : FEWER_RUNS.formatted(made, runs, within);
        }

        private static boolean isSet(String variable) { return !System.getenv().getOrDefault(variable, "").isEmpty(); }

        /**
         * Returns the sizes of a run with more overlapping calls: more threads (possibly more than processors), fewer
         * keys, and twice as many calls in total. Does not change numbers that the options set. The threads wait for
         * each other only at the beginning, because on a busy machine a waiting thread is not interrupted during a
         * call.
         */
        private Shape harder(Shape it) {
            int wanted = Math.max(2 * it.threads, Runtime.getRuntime().availableProcessors() + 2), more = threads > 0 ? it.threads : Math.min(wanted, 64);
            int ofSet = calls > 0 ? it.calls : 2 * it.calls * it.threads / more + 1, fewer = keys > 0 ? it.keys : Math.max(it.keys / 2, 1);
            return new Shape(it.name, more, it.sets, ofSet, fewer, it.times, true);
        }
    }

    /**
     * The result of a successful test: some order explains each run. {@code overlapped} is the number of calls that
     * overlapped a change of their key, as counted by the judge. {@code judge} is the judge's name, and whether the
     * judge states that it is proved. {@code fewerRuns} is the part of the text about runs that were not performed
     * because of the time limit of the test; it is empty if all runs were performed. {@code toString} formats the
     * result.
     */
    public record Verdict(long calls, long overlapped, String judge, String fewerRuns) {
        /** Creates the result of a test that performed all runs. */
        public Verdict(long calls, long overlapped, String judge) { this(calls, overlapped, judge, ""); }

        @Override public String toString() {
            return judge.isEmpty() ? SKIPPED : (isFew(overlapped, calls) ? FEW : OK).formatted(calls, overlapped) + fewerRuns + "; judge: " + judge;
        }
    }

    /** Returns whether so few calls overlapped that the verdict {@code ok} means little. */
    private static boolean isFew(long overlapped, long calls) { return overlapped * 100 < calls * ENOUGH; }

    /** A failed run, with its seed, the judge's output, and the file with the recording. */
    public static class Failed extends AssertionError {
        private static final long serialVersionUID = 1;
        public final long seed;
        public final String said, file;

        Failed(long seed, String said, Path file, String text) {
            super(text);
            this.seed = seed;
            this.said = said;
            this.file = file.toString();
        }
    }

    /** Thrown if no order explains a run. */
    public static final class NotLinearizable extends Failed {
        private static final long serialVersionUID = 1;

        NotLinearizable(long seed, String said, Path file, String text) { super(seed, said, file, text); }
    }

    /** Thrown if the set ended its JVM, hung or threw during a run. The run's earlier calls were judged. */
    public static final class CutShort extends Failed {
        private static final long serialVersionUID = 1;

        CutShort(long seed, String said, Path file, String text) { super(seed, said, file, text); }
    }

    /** Thrown if fewer calls than the options require overlapped a change of their key. */
    public static final class TooFew extends AssertionError {
        private static final long serialVersionUID = 1;

        TooFew(String why) { super(why); }
    }

    /** Thrown if nothing is known about the set: an option is out of range, no set could be created, or no judge was
     * found. */
    public static final class NoVerdict extends RuntimeException {
        private static final long serialVersionUID = 1;

        NoVerdict(String why) { super(why); }

        NoVerdict(String why, Throwable cause) { super(why + cause, cause); }
    }

    /** Thrown by a call to a set if the call's outcome is unknown, for example after a timeout. */
    public static final class NotKnown extends RuntimeException {
        private static final long serialVersionUID = 1;
    }

    /**
     * Creates a set. A method reference or lambda is sent to the JVM that calls the sets, unless it refers to an object that
     * cannot be sent.
     */
    public interface Make<S> extends Supplier<S>, Serializable { }

    /** Converts a number to a key. Different numbers must have different keys. */
    public interface Keys<K> extends IntFunction<K>, Serializable { }

    /** One operation of a set: makes a call with a key and returns the reply. */
    public interface Call<S, K> extends BiPredicate<S, K>, Serializable { }

    public static Verdict judge(Make<? extends Set<Integer>> make) { return judge(make, new Options()); }

    public static Verdict judge(Make<? extends Set<Integer>> make, Options how) {
        return judge(make, Set::add, Set::remove, Set::contains, how);
    }

    public static <S> Verdict judge(Make<? extends S> make, Call<S, Integer> add, Call<S, Integer> remove, Call<S, Integer> contains) {
        return judge(make, add, remove, contains, new Options());
    }

    /**
     * Judges any set through its three calls. Throws {@link NotLinearizable} if no order explains a run, and {@link
     * CutShort} if the set hangs, throws or ends its JVM.
     */
    public static <S> Verdict judge(Make<? extends S> make, Call<S, Integer> add, Call<S, Integer> remove, Call<S, Integer> contains, Options how) {
        return Tester.judge(how, new Calls<>(make, null, add, remove, contains));
    }

    /**
     * Judges sets with keys of any type. {@code keys} converts a number to a key, and must return a different key for each
     * number.
     */
    public static <S, K> Verdict judge(Make<? extends S> make, Keys<K> keys, Call<S, K> add, Call<S, K> remove, Call<S, K> contains, Options how) {
        return Tester.judge(how, new Calls<>(make, keys, add, remove, contains));
    }

    /** Returns the number in an environment variable, or {@code other} if the variable is not set. */
    private static long numberOf(String variable, long other, long least, long most) {
        String text = System.getenv(variable);
        if (text == null || text.isEmpty()) return other;
        long found = text.matches("[0-9]{1,18}") ? Long.parseLong(text) : -1;
        if (found < least || found > most) throw new NoVerdict(NUMBER.formatted(variable, text, least, most));
        return found;
    }

    /** Skips the test with an exception of JUnit or TestNG. Without them, returns a verdict without calls. */
    private static Verdict skipped() {
        if (System.getenv("CI") != null && !System.getenv("CI").isEmpty()) throw new NoVerdict(NOT_IN_CI);
        for (String name : List.of("org.opentest4j.TestAbortedException", "org.junit.AssumptionViolatedException", "org.testng.SkipException")) {
            try {
                throw (RuntimeException) Class.forName(name).getConstructor(String.class).newInstance(SKIPPED);
            } catch (ReflectiveOperationException another) {
                // This framework does not run the tests: try the next one.
            }
        }
        System.err.println(SKIPPED);
        return new Verdict(0, 0, "");
    }

    /** The state of a test. Judges runs one after another. */
    private record Tester<S, K>(Options how, Calls<S, K> calls, Program program, Caller<S, K> caller, long began) {
        static <S, K> Verdict judge(Options how, Calls<S, K> calls) {
            how.check();
            if ("skip".equals(System.getenv("LISTSET"))) return skipped();
            calls.check(how.keys > 0 ? how.keys : Stream.of(PRESETS).mapToInt(Shape::keys).max().getAsInt());
            Program program = Program.found();
            try (Caller<S, K> caller = Caller.of(calls, how)) {
                return new Tester<>(how.byEnvironment(), calls, program, caller, System.nanoTime()).all();
            } catch (IOException full) {
                throw new NoVerdict("the recording cannot be written: ", full);
            }
        }

        /** Performs the requested runs, each up to three times, and then more runs as long as few calls have overlapped. */
        private Verdict all() throws IOException {
            long seed = how.seed;
            long[] sums = {0, 0}; // the number of calls, and the number of calls that overlapped
            for (; seed - how.seed < how.runs && (seed == how.seed || isWithin(began, how.within)); seed++) {
                Shape shape = how.shapeOf(seed);
                for (int tries = 0; areFew(sums, seed, shape) && tries < HARDER && isWithin(began, PATIENCE); tries++) shape = how.harder(shape);
            }
            String fewerRuns = how.fewerRuns(seed - how.seed);
            for (long end = System.nanoTime(); isFew(sums[1], sums[0]) && isWithin(began, how.within) && isWithin(end, PATIENCE); seed++) {
                areFew(sums, seed, how.harder(how.harder(how.shapeOf(seed))));
            }
            Verdict verdict = new Verdict(sums[0], sums[1], program.toString(), fewerRuns);
            if (isFew(sums[1], sums[0])) System.err.println(verdict); // (the test framework can hide a passed test's output)
            if (sums[1] * 100 < sums[0] * how.atLeast) throw new TooFew(TOO_FEW.formatted(sums[1], sums[0], how.atLeast));
            return verdict;
        }

        private static boolean isWithin(long since, int seconds) { return System.nanoTime() - since < seconds * SECOND; }

        /** Performs a run and adds its numbers of calls to {@code sums}. Returns whether few of the run's calls
         * overlapped. */
        private boolean areFew(long[] sums, long seed, Shape shape) throws IOException {
            long overlapped = judged(seed, shape);
            sums[0] += shape.allCalls();
            sums[1] += overlapped;
            return isFew(overlapped, shape.allCalls());
        }

        /**
         * Performs a run and judges its recording. Returns the number of calls that overlapped a change of their
         * key.
         */
        private long judged(long seed, Shape given) throws IOException {
            Shape shape = calls.keys == null ? given : given.withNumbers();
            Outcome first = outcome(seed, shape, Long.MAX_VALUE);
            if (!first.isFailed()) return first.overlapped;
            StringBuilder refusedOf = new StringBuilder();
            Outcome best = first.isCutShort ? first : clearest(first, shape, refusedOf);
            best.recording.isKept = true;
            String text = message(best, shape, refusedOf + passedBefore(seed));
            Path file = best.recording.file;
            throw best.isCutShort ? new CutShort(best.seed, best.said, file, text) : new NotLinearizable(best.seed, best.said, file, text);
        }

        /**
         * Performs a run and judges its recording. Leaves the recording of a failed run open. In a child JVM, cuts the
         * run short after {@code most} nanoseconds.
         */
        private Outcome outcome(long seed, Shape shape, long most) throws IOException {
            Recording recording = new Recording(seed, how.record);
            Outcome its = null;
            try {
                String trouble = caller.made(seed, shape, recording.file, most), pending = trouble == null ? "" : shown(caller.area.cut(), shape);
                Judgement judged = program.judged(recording.file);
                String refused = judged.refused == null ? EXPLAINED : judged.refused;
                String said = trouble == null ? judged.refused : UNDER_WAY.formatted(trouble, pending, refused);
                Matcher key = OF_KEY.matcher(refused);
                return its = new Outcome(seed, judged.overlapped, said, key.find() ? key.group(1) : null, trouble != null, recording);
            } finally {
                if (its == null || !its.isFailed()) recording.close();
            }
        }

        /**
         * Performs longer runs with the preset of a refused run and later seeds, until a run cannot be completed. They
         * begin and end within FURTHER_FOR seconds, or within FURTHER_MOST seconds while the best refusal reports fewer
         * than CLEAR contradictions. Both times are shorter if the test's own time limits are short. Returns the run
         * whose refusal reports the most contradictions, and appends the part of the message that counts the refused
         * runs to {@code refusedOf}.
         */
        private Outcome clearest(Outcome first, Shape shape, StringBuilder refusedOf) {
            if (caller.process == null || how.isReplay()) return first;
            long tenth = SECOND / 10 * Math.min(10 * FURTHER_FOR, Math.min(how.seconds, how.within));
            long now = System.nanoTime(), left = how.within * SECOND - (now - began);
            Outcome best = first;
            int refused = 1, runs = 1;
            while (runs <= FURTHER) {
                long most = Math.min(left, best.contradictions() < CLEAR ? tenth * FURTHER_MOST / FURTHER_FOR : tenth);
                if (System.nanoTime() - now >= most) break;
                Outcome next = furtherRun(first.seed + (long) runs * PRESETS.length, shape.longer(), most - (System.nanoTime() - now));
                if (next == null) break;
                runs++;
                if (!next.isFailed()) continue;
                refused++;
                Outcome other = next.contradictions() > best.contradictions() ? best : next;
                best = other == best ? next : best;
                other.recording.close();
            }
            if (runs > 1) refusedOf.append(REFUSED_OF.formatted(refused, runs));
            return best;
        }

        /** Performs and judges a run with the sizes {@code shape}. Returns null if the run is cut short or cannot be
         * judged. */
        private Outcome furtherRun(long seed, Shape shape, long most) {
            try {
                Outcome its = outcome(seed, shape, most);
                if (its.isCutShort) its.recording.close();
                return its.isCutShort ? null : its;
            } catch (NoVerdict | IOException none) {
                return null;
            }
        }

        /** Returns the complete message about a failed run. {@code notes} is the part of the message about earlier and
         * further runs. */
        private String message(Outcome its, Shape shape, String notes) throws IOException {
            Path file = its.recording.file;
            String named = its.key == null ? "" : keyLine(Integer.parseInt(its.key), shape), alone = its.key == null ? "" : alone(file, its.key);
            return FAILED_RUN.formatted(its.said, its.seed, shape.name, shape.threads, madeHarder(its.seed, shape) + notes + named, file, alone, program);
        }

        /**
         * Returns the part of the message about a run whose sizes were changed because few calls overlapped. Returns
         * an empty string if the run has the sizes of its preset.
         */
        private String madeHarder(long seed, Shape it) {
            Shape first = how.shapeOf(seed);
            return it.threads == first.threads && it.calls == first.calls && it.keys == first.keys ? "" : MADE_HARDER;
        }

        /** Returns the part of the message that names the presets of the earlier runs, which all passed. */
        private String passedBefore(long seed) {
            StringBuilder names = new StringBuilder();
            for (long it = how.seed; it < seed && it < how.seed + PRESETS.length; it++) {
                names.append(names.length() == 0 ? "" : ", ").append(how.shapeOf(it).name);
            }
            return names.length() == 0 ? "" : PASSED_BEFORE.formatted(names);
        }

        /**
         * Writes a small file beside the recording, with calls on one key that no order explains. Returns the part of
         * the message that names the file.
         */
        private String alone(Path file, String key) throws IOException {
            Answer answer = program.answer("judge", "--only", key, file.toString());
            if (answer.status != 0) return "";
            String name = file.toString();
            return ALONE.formatted(Files.writeString(Path.of(name.substring(0, name.length() - ".calls".length()) + "-key-" + key + ".calls"), answer.said + "\n"));
        }

        /**
         * Describes the key whose number in the recording is {@code number} and, if the run has several sets, the key's
         * set. Returns an empty string if the key is the number and the run has a single set.
         */
        private String keyLine(int number, Shape shape) {
            if (shape.sets == 1 && calls.keys == null) return "";
            int key = number / shape.times;
            return KEY_IS.formatted(number, nameOf(key, shape)) + inSet(key, shape);
        }

        private String nameOf(int key, Shape shape) { return String.valueOf(calls.key(key % shape.keys, shape.times)); }

        private static String inSet(int key, Shape shape) { return shape.sets > 1 ? IN_SET.formatted(key / shape.keys + 1) : ""; }

        /** Returns a line for each pending call, at most MOST_SHOWN. */
        private String shown(List<Row> pending, Shape shape) {
            StringBuilder lines = new StringBuilder();
            for (Row it : pending.subList(0, Math.min(pending.size(), MOST_SHOWN))) {
                String number = "" + it.key * shape.times, name = nameOf(it.key, shape);
                String note = (name.equals(number) ? "" : IS_KEY.formatted(number)) + inSet(it.key, shape);
                lines.append(PENDING_CALL.formatted(it.thread, WORDS[it.call], name, note, it.begin));
            }
            if (pending.size() > MOST_SHOWN) lines.append(AND_MORE.formatted(pending.size() - MOST_SHOWN));
            return pending.isEmpty() ? " no call" : lines.toString();
        }
    }

    // ---- a run and its recording

    private record Calls<S, K>(Make<? extends S> make, Keys<K> keys, Call<S, K> add, Call<S, K> remove, Call<S, K> contains) implements Serializable {
        private static final int NO = 0, YES = 1, UNKNOWN = 2;

        /**
         * Converts a number to a key. Each call creates a new object. If the test has no function for keys, the key is
         * the number times {@code times}.
         */
        @SuppressWarnings("unchecked")
        K key(int number, int times) { return keys == null ? (K) Integer.valueOf(number * times) : keys.apply(number); }

        void check(int count) {
            Map<K, Integer> seen = new HashMap<>();
            for (int i = 0; i < count; i++) {
                Integer old = seen.put(key(i, 1), i);
                if (old != null) throw new NoVerdict(TWICE.formatted(key(i, 1), old, i));
            }
        }

        int reply(S set, int call, K key) {
            try {
                return (call == 0 ? add : call == 1 ? remove : contains).test(set, key) ? YES : NO;
            } catch (NotKnown unknown) {
                return UNKNOWN;
            }
        }
    }

    /** The memory of a run, with the calls that have not been saved in the file yet. JVMs can share the memory. */
    private record Area(Options how, ByteBuffer memory) {
        private static final VarHandle INT = MethodHandles.byteBufferViewVarHandle(int[].class, ByteOrder.nativeOrder());
        // Offsets in the memory. IS_HERE: whether the child JVM has started. SAVES: two records about the last save,
        // each with the length of the file as a long, and the value of TICKETS at the save; the file contains all calls
        // that had begun by the last save. SAVE: the index of the valid record. SHAPE: the six numbers of a Shape. WHY
        // and FILE: texts.
        private static final int TICKETS = 0, THERE = 4, DONE = 8, BEGUN = 12, AT = 16, STOPPING = 20, IS_HERE = 24, IS_BUSY = 28, SEED = 32, SAVE = 40,
            SAVES = 48, SAVED = 16, MOMENT = 8, SHAPE = SAVES + 2 * SAVED, WHY = SHAPE + 24, FILE = WHY + 4 + 1000, SLOTS = FILE + 4 + 1024;
        private static final int BEGIN = 0, END = 4, CALL = 8, KEY = 12, REPLY = 16, THREAD = 20, SLOT = 24; // offsets in a call; the calls of one thread are adjacent in the memory
        private static final int GOING = 1, OVER = 2, FAILED = 3, UNMADE = 4; // the values of AT
        private static final int SIZE = SLOTS + PART * SLOT;

        Area {
            memory.order(ByteOrder.nativeOrder());
        }

        int get(int at) { return (int) INT.getVolatile(memory, at); }

        void set(int at, int number) { INT.setVolatile(memory, at, number); }

        int next(int at) { return (int) INT.getAndAdd(memory, at, 1) + 1; }

        Shape shape() {
            return new Shape("", get(SHAPE), get(SHAPE + 4), get(SHAPE + 8), get(SHAPE + 12), get(SHAPE + 16), get(SHAPE + 20) == 1);
        }

        /**
         * Prepares the memory for the run with the seed {@code seed} and the recording {@code file}, and starts the
         * run.
         */
        void begin(long seed, Shape of, Path file) {
            for (int at = 0; at < SIZE; at += 4) if (at != IS_HERE) memory.putInt(at, 0);
            memory.putLong(SEED, seed);
            memory.putInt(SHAPE, of.threads).putInt(SHAPE + 4, of.sets).putInt(SHAPE + 8, of.calls).putInt(SHAPE + 12, of.keys).putInt(SHAPE + 16, of.times).putInt(SHAPE + 20, of.meetsOnce ? 1 : 0);
            putText(FILE, SLOTS - FILE, file.toString());
            set(AT, GOING);
        }

        private void putText(int at, int room, String text) {
            byte[] bytes = text.getBytes(StandardCharsets.UTF_8);
            int length = Math.min(bytes.length, room - 4);
            memory.put(at + 4, bytes, 0, length);
            set(at, length);
        }

        private String text(int at) {
            byte[] bytes = new byte[get(at)];
            memory.get(at + 4, bytes);
            return new String(bytes, StandardCharsets.UTF_8);
        }

        /** Returns the lines of calls. */
        private String lines(List<Row> rows) {
            int times = shape().times;
            return rows.stream().map(it -> it.line(times)).collect(Collectors.joining());
        }

        /** Completes the recording of a run that was cut short: appends the calls that are still in memory, then {@code
         * cut}. Returns the pending calls. */
        List<Row> cut() throws IOException {
            List<Row> rows = rows();
            write(lines(rows) + "cut\n");
            return rows.stream().filter(it -> it.end == 0).collect(Collectors.toList());
        }

        private int saved() { return SAVES + get(SAVE) * SAVED; }

        /** Writes {@code lines} to the file, after the saved lines. Returns the new length of the file. */
        long write(String lines) throws IOException {
            try (FileChannel file = FileChannel.open(Path.of(text(FILE)), StandardOpenOption.WRITE)) {
                long length = memory.getLong(saved());
                ByteBuffer bytes = StandardCharsets.US_ASCII.encode(lines);
                file.truncate(length);
                while (bytes.hasRemaining()) file.write(bytes, length + bytes.position());
                return length + bytes.limit();
            }
        }

        /** Appends {@code lines} to the file and marks all calls so far as saved. No call is pending while {@code save}
         * runs. */
        void save(String lines) throws IOException {
            int other = 1 - get(SAVE);
            memory.putLong(SAVES + other * SAVED, write(lines)).putInt(SAVES + other * SAVED + MOMENT, get(TICKETS));
            set(SAVE, other); // (if the JVM ends before this step, its last calls are only in memory)
        }

        /**
         * Returns the calls that have not been saved, sorted by start. Threads can begin and end calls while {@code
         * rows} runs: a call that begins meanwhile is left out, and a call that ends meanwhile is pending.
         */
        private List<Row> rows() {
            List<Row> found = new ArrayList<>();
            int now = get(TICKETS), since = get(saved() + MOMENT), behind = SLOTS + shape().threads * shape().rows() * SLOT;
            for (int at = SLOTS; at < behind; at += SLOT) {
                int ended = get(at + END), begin = get(at + BEGIN); // (a pending call's slot can have the end of an earlier call)
                int end = ended > now || ended < begin ? 0 : ended, reply = end > 0 ? get(at + REPLY) : Calls.NO;
                if (begin > since && begin <= now) found.add(new Row(get(at + THREAD), get(at + CALL), get(at + KEY), begin, end, reply));
            }
            found.sort(Comparator.comparingInt(Row::begin));
            return found;
        }

        /** Creates the sets of a run, and makes the calls of all threads to them. */
        <S, K> void callAll(Calls<S, K> calls, boolean isOwn) {
            new Play<>(this, calls, shape(), new AtomicReference<>()).all(isOwn && how.pauses > 0);
            INT.compareAndSet(memory, AT, GOING, OVER);
        }
    }

    /** The threads of a run, and the set that they call. */
    private record Play<S, K>(Area area, Calls<S, K> calls, Shape of, AtomicReference<S> set) {
        // The maximum number of contains calls made to find out whether a key is in the set at the start or at the end.
        // A call is repeated while its outcome is unknown.
        private static final int MOST_ASKED = 100;

        void all(boolean interrupts) {
            List<Thread> threads = new ArrayList<>();
            for (int i = 0; i < of.threads; i++) {
                int thread = i;
                threads.add(start(() -> tried(Area.FAILED, () -> callInRounds(thread))));
            }
            AtomicBoolean isOver = new AtomicBoolean();
            if (interrupts) start(() -> interrupt(threads, isOver));
            tried(Area.FAILED, () -> {
                lead();
                isOver.set(true);
                for (Thread it : threads) it.join();
            });
            isOver.set(true);
        }

        /**
         * Interrupts random threads during their calls by reading their stacks. A thread waits while its stack is read.
         */
        private void interrupt(List<Thread> threads, AtomicBoolean isOver) {
            for (SplittableRandom draw = new SplittableRandom(area.memory.getLong(Area.SEED)); !isOver.get();) {
                LockSupport.parkNanos(draw.nextInt(APART) * 1000L);
                threads.get(draw.nextInt(threads.size())).getStackTrace();
            }
        }

        private interface Doing {
            void run() throws Exception;
        }

        /** Runs an action and stores the error that it throws, if any. Only the run's first error is kept. */
        private void tried(int as, Doing does) {
            try {
                does.run();
            } catch (Throwable why) {
                if (area.next(Area.STOPPING) > 1) return;
                why.printStackTrace(); // (before AT is set, because the parent JVM then ends this JVM)
                area.putText(Area.WHY, Area.FILE - Area.WHY, (as == Area.UNMADE ? NOT_MADE : THREW).formatted(why + place(why)));
                area.set(Area.AT, as);
            }
        }

        /** Returns the place of an error: the innermost method that is neither in this class nor in the JDK. */
        private static String place(Throwable why) {
            String own = Judge.class.getName();
            return Stream.of(why.getStackTrace()).filter(it -> !it.getClassName().equals(own) && !it.getClassName().startsWith(own + "$"))
                .filter(it -> it.getModuleName() == null || !it.getModuleName().startsWith("java.")).findFirst().map(it -> " (at " + it + ")").orElse("");
        }

        /**
         * Waits until {@code isDone} returns true: polls {@code awake} times, then sleeps between polls. Returns false if
         * the run was stopped.
         */
        private boolean waits(int awake, BooleanSupplier isDone) {
            for (int looks = 0; !isDone.getAsBoolean() && area.get(Area.STOPPING) == 0; looks++) {
                if (looks >= awake) LockSupport.parkNanos(20_000);
            }
            return area.get(Area.STOPPING) == 0;
        }

        /**
         * Waits until all threads have called {@code meets}, so that they continue at the same time. Polls without
         * sleeping if there is a processor for each thread, unless an earlier call of {@code meets} lasted too long.
         */
        private boolean meets() {
            boolean isAwake = of.threads <= Runtime.getRuntime().availableProcessors() && area.get(Area.IS_BUSY) == 0;
            int all = (area.next(Area.THERE) - 1) / of.threads * of.threads + of.threads;
            int[] looks = {0};
            boolean areThere = waits(isAwake ? AWAKE : LONGEST, () -> looks[0]++ < 0 || area.get(Area.THERE) >= all);
            if (looks[0] > AWAKE) area.set(Area.IS_BUSY, 1);
            return areThere;
        }

        /**
         * Creates the sets one after another. The threads call each set in parts, and after each part, {@code lead}
         * saves the part's calls in the file.
         */
        private void lead() throws IOException {
            List<String> left = new ArrayList<>();
            area.save("listset-calls 1\n");
            for (int i = 0; i < of.rounds(); i++) {
                int round = i;
                if (round % of.parts() == 0) {
                    tried(Area.UNMADE, () -> set.set(calls.make.get()));
                    if (area.get(Area.STOPPING) > 0) return;
                    if (area.how.opensWithKeys) tried(Area.UNMADE, () -> area.save(opening(round)));
                    if (area.get(Area.STOPPING) > 0) return;
                }
                area.set(Area.BEGUN, round + 1);
                if (!waits(LONGEST, () -> area.get(Area.DONE) == (round + 1) * of.threads)) return;
                if ((round + 1) % of.parts() == 0) left.add(linesOfKeys("key ", round));
                if (area.get(Area.STOPPING) > 0) return; // (the run was cut short)
                area.save(area.lines(area.rows()));
            }
            area.write(left.contains(null) ? "cut\n" : String.join("", left) + "end\n"); // (these lines are not marked as saved, because the run can still be cut short)
        }

        private String opening(int round) {
            String lines = linesOfKeys("opening ", round);
            if (lines == null) throw new IllegalStateException(NO_OPENING.formatted(MOST_ASKED));
            return lines;
        }

        /**
         * Calls contains for each key, and calls it again if the outcome is unknown. Returns a line for each key found,
         * or null if an outcome stays unknown.
         */
        private String linesOfKeys(String word, int round) {
            StringBuilder lines = new StringBuilder();
            for (int key = 0; key < of.keys; key++, area.next(Area.TICKETS)) {
                int number = round / of.parts() * of.keys + key;
                int reply = Calls.UNKNOWN;
                for (int asked = 0; reply == Calls.UNKNOWN && asked < MOST_ASKED; asked++) reply = calls.reply(set.get(), 2, calls.key(key, of.times));
                if (reply == Calls.YES) lines.append(word).append(number * of.times).append('\n');
                if (reply == Calls.UNKNOWN) return null;
            }
            return lines.toString();
        }

        /** Makes the calls of one thread to the sets, part by part. A part consists of the calls between two saves. */
        private void callInRounds(int thread) {
            SplittableRandom draw = new SplittableRandom(area.memory.getLong(Area.SEED) * 64 + thread);
            int number = thread;
            for (int i = 0; i < of.rounds(); i++) {
                int round = i, count = Math.min(of.rows(), of.calls - round % of.parts() * of.rows());
                if (!waits(LONGEST, () -> area.get(Area.BEGUN) > round)) return;
                S its = set.get();
                for (int done = 0; done < count; done++) {
                    boolean isMet = done > 0 && (done % MEET > 0 || of.meetsOnce);
                    if (!isMet && !meets()) return;
                    int at = Area.SLOTS + (thread * of.rows() + done) * Area.SLOT;
                    if (call(its, at, round / of.parts() * of.keys, number, draw) == Calls.UNKNOWN) number += of.threads;
                }
                area.next(Area.DONE);
            }
        }

        private int call(S its, int at, int ofSet, int number, SplittableRandom draw) {
            Options how = area.how;
            int drawn = draw.nextInt(how.adds + how.removes + how.finds), call = drawn < how.adds ? 0 : drawn < how.adds + how.removes ? 1 : 2;
            int key = draw.nextInt(of.keys > 2 * HOT && draw.nextBoolean() ? HOT : of.keys);
            area.memory.putInt(at + Area.THREAD, number).putInt(at + Area.CALL, call).putInt(at + Area.KEY, ofSet + key);
            for (int pause = draw.nextInt(100) < how.pauses ? draw.nextInt(LONGEST) : 0; pause > 0; pause--) area.get(Area.TICKETS);
            K given = calls.key(key, of.times);
            Area.INT.setRelease(area.memory, at + Area.BEGIN, area.next(Area.TICKETS));
            int reply = calls.reply(its, call, given);
            area.memory.putInt(at + Area.REPLY, reply);
            Area.INT.setRelease(area.memory, at + Area.END, area.next(Area.TICKETS));
            return reply;
        }
    }

    /**
     * Performs runs one after another, in a child JVM or, if {@code process} is null, in the test's JVM. The child JVM
     * ends when its input ends.
     */
    private record Caller<S, K>(Calls<S, K> calls, Options how, Area area, Process process) implements AutoCloseable {
        static <S, K> Caller<S, K> of(Calls<S, K> calls, Options how) {
            try {
                Caller<S, K> child = how.ownProcess ? inChild(calls, how) : null;
                if (child != null) return child;
            } catch (IOException | ClassNotFoundException | URISyntaxException | RuntimeException | LinkageError cannot) {
                // The calls cannot be sent to a child JVM.
            }
            return new Caller<>(calls, how, new Area(how, ByteBuffer.allocateDirect(Area.SIZE)), null);
        }

        /** Starts the child JVM. Returns null if the child JVM cannot receive the calls, or cannot create a set. */
        private static <S, K> Caller<S, K> inChild(Calls<S, K> calls, Options how) throws IOException, ClassNotFoundException, URISyntaxException {
            byte[] given = written(how, calls);
            if (!isReadBackUnchanged(given)) return null;
            Path file = Files.createTempFile("listset-", ".area");
            try {
                Caller<S, K> made = new Caller<>(calls, how, Child.shared(how, file), Child.started(Child.path(calls), file));
                made.process.getOutputStream().write(given);
                made.process.getOutputStream().flush();
                for (long until = System.nanoTime() + 60 * SECOND; made.process.isAlive() && System.nanoTime() < until; LockSupport.parkNanos(1_000_000)) {
                    if (made.area.get(Area.IS_HERE) == 1) return made;
                }
                made.close();
                return null;
            } finally {
                file.toFile().delete();
            }
        }

        private static byte[] written(Object... objects) throws IOException {
            ByteArrayOutputStream given = new ByteArrayOutputStream();
            try (ObjectOutputStream out = new ObjectOutputStream(given)) {
                for (Object it : objects) out.writeObject(it);
            }
            return given.toByteArray();
        }

        /**
         * Returns whether options and calls are unchanged after they have been serialized and read back. The javac of
         * Java 17 identifies a method reference by the method that implements it. If A and B inherit {@code contains},
         * {@code B::contains} is therefore read back as {@code A::contains}.
         */
        private static boolean isReadBackUnchanged(byte[] given) throws IOException, ClassNotFoundException {
            try (ObjectInputStream in = new ObjectInputStream(new ByteArrayInputStream(given))) {
                return Arrays.equals(given, written(in.readObject(), in.readObject()));
            }
        }

        /**
         * Performs the run with the seed {@code seed}, and cuts the run short after {@code most} nanoseconds. Returns
         * the reason if the run was cut short, otherwise null.
         */
        String made(long seed, Shape of, Path file, long most) {
            area.begin(seed, of, file);
            if (process == null) start(() -> area.callAll(calls, false));
            String trouble = isHung(most) ? HUNG.formatted(how.seconds) : area.get(Area.AT) >= Area.OVER ? null : ENDED_SO.formatted(process.exitValue());
            if (area.get(Area.AT) >= Area.FAILED) trouble = area.text(Area.WHY);
            if (area.get(Area.AT) == Area.UNMADE) throw new NoVerdict(trouble);
            if (trouble != null && area.get(Area.TICKETS) == 0) throw new NoVerdict(NOT_MADE.formatted(trouble));
            if (trouble != null) close(); // (otherwise a set that hung could continue while its run is judged)
            return trouble;
        }

        /**
         * Waits until the run has ended. Returns true after {@code most} nanoseconds, or if the run hangs, that is, if
         * no call begins or ends for too long. The time between two polls counts as at most five milliseconds, so that
         * a run that gets no processor time does not count as hung.
         */
        private boolean isHung(long most) {
            long began = System.nanoTime(), last = began, waited = 0;
            for (int seen = -1; area.get(Area.AT) < Area.OVER && (process == null || process.isAlive()); LockSupport.parkNanos(300_000)) {
                int now = area.get(Area.TICKETS);
                long time = System.nanoTime();
                waited = now == seen ? waited + Math.min(time - last, SECOND / 200) : 0;
                seen = now;
                last = time;
                if (waited > how.seconds * SECOND || time - began > most) return true;
            }
            return false;
        }

        /** Ends the child JVM. Threads of the test's JVM that hang keep running. */
        @Override public void close() {
            if (process == null) area.next(Area.STOPPING);
            else process.destroyForcibly().onExit().join();
        }
    }

    /** The main class of the child JVM. */
    private static final class Child {
        static Process started(String path, Path file) throws IOException {
            return new ProcessBuilder(Path.of(System.getProperty("java.home"), "bin", "java").toString(),
                Judge.class.desiredAssertionStatus() ? "-ea" : "-da", "-cp", path, Child.class.getName(), file.toString())
                .redirectOutput(ProcessBuilder.Redirect.DISCARD).redirectError(ProcessBuilder.Redirect.INHERIT).start();
        }

        static Area shared(Options how, Path file) throws IOException {
            try (FileChannel channel = FileChannel.open(file, StandardOpenOption.READ, StandardOpenOption.WRITE)) {
                return new Area(how, channel.map(FileChannel.MapMode.READ_WRITE, 0, Area.SIZE));
            }
        }

        /** Returns the class path that the calls need. */
        static String path(Calls<?, ?> calls) throws URISyntaxException {
            StringBuilder path = new StringBuilder(System.getProperty("java.class.path"));
            for (Class<?> it : List.of(Judge.class, calls.make.getClass(), calls.add.getClass())) {
                path.append(File.pathSeparator).append(Path.of(it.getProtectionDomain().getCodeSource().getLocation().toURI()));
            }
            return path.toString();
        }

        public static void main(String[] words) {
            try {
                ObjectInputStream in = new ObjectInputStream(System.in);
                Options how = (Options) in.readObject();
                Calls<?, ?> calls = (Calls<?, ?>) in.readObject();
                calls.make.get();
                start(Child::endWithInput);
                Area area = shared(how, Path.of(words[0]));
                for (area.set(Area.IS_HERE, 1);; LockSupport.parkNanos(100_000)) {
                    if (area.get(Area.AT) == Area.GOING) area.callAll(calls, true);
                }
            } catch (Exception | LinkageError cannot) {
                System.exit(1); // (the JVM that started this one then creates the set itself)
            }
        }

        private static void endWithInput() {
            try {
                while (System.in.read() >= 0) continue;
            } catch (IOException closed) {
                // An error in the input is treated as the end of the input.
            }
            Runtime.getRuntime().halt(1);
        }
    }

    private static Thread start(Runnable does) {
        Thread made = new Thread(does);
        made.setDaemon(true);
        made.start();
        return made;
    }

    // ---- judging a run

    private record Row(int thread, int call, int key, int begin, int end, int reply) {
        String line(int times) {
            String ended = end > 0 && reply != Calls.UNKNOWN ? end + " " + (reply == Calls.YES) : "- -";
            return "call " + thread + " " + WORDS[call] + " " + key * times + " " + begin + " " + ended + "\n";
        }
    }

    /** The file with the recording of a run. The file grows during the run. */
    private static final class Recording implements AutoCloseable {
        private final Path file;
        private boolean isKept;

        Recording(long seed, String record) {
            isKept = record != null;
            String named = System.getenv("LISTSET_RECORD");
            boolean isNamed = named != null && !named.isEmpty();
            Path folder = Path.of(isKept ? record : isNamed ? named : System.getProperty("java.io.tmpdir"));
            try {
                Files.createDirectories(folder);
                file = isKept ? folder.resolve("seed-" + seed + ".calls") : Files.createTempFile(folder, "listset-seed-" + seed + "-", ".calls");
                if (isKept) Files.writeString(file, "");
            } catch (IOException none) {
                throw new NoVerdict((isKept ? NO_FOLDER : isNamed ? NO_RECORD : NO_TEMPORARY).formatted(folder));
            }
        }

        @Override public void close() {
            if (!isKept) file.toFile().delete();
        }
    }

    /**
     * The outcome of a run. {@code said} is the judge's output if the run failed (preceded by the reason if the run was
     * cut short), otherwise null. {@code key} is the key that the judge names, or null.
     */
    private record Outcome(long seed, long overlapped, String said, String key, boolean isCutShort, Recording recording) {
        private static final Pattern CONTRADICTIONS = Pattern.compile("([0-9]{1,18}) (?:contradiction|of its )");

        boolean isFailed() { return said != null; }

        /** Returns the number of contradictions in the judge's output, or 0 if the output contains no number. */
        long contradictions() {
            Matcher found = CONTRADICTIONS.matcher(said);
            return found.find() ? Long.parseLong(found.group(1)) : 0;
        }
    }

    /** Matches the key that a judge names. */
    private static final Pattern OF_KEY = Pattern.compile("of key ([0-9]+) ");

    // ---- the judge

    /**
     * The verdict on a recording: the judge's output if it refused the recording (otherwise null), and the number of
     * calls that overlapped a change of their key.
     */
    private record Judgement(String refused, long overlapped) { }

    /** The output and the exit status of a command. */
    private record Answer(String said, int status) { }

    /**
     * The program that judges: its name, the command with its first arguments, and the line that says whether the
     * program is proved. {@code toString} returns the name and the line.
     */
    private record Program(String name, List<String> command, String proof) {
        private static final Pattern OVERLAPPED = Pattern.compile("ok [0-9]+ calls\n([0-9]+) of them");

        @Override public String toString() { return name + ", " + proof; }

        static Program found() {
            String named = System.getenv("LISTSET"), name = named == null || named.isEmpty() ? "listset" : named;
            boolean isScript = name.endsWith(".js");
            Path path = Path.of(name).toAbsolutePath();
            if (isScript && !Files.exists(path)) throw new NoVerdict(NO_SCRIPT.formatted(name, path));
            Program asked = new Program(name, isScript ? List.of("node", name) : List.of(name), "");
            Answer answer = asked.answer("--version", "--long");
            if (isScript && answer.status != 0) checkNode(name);
            String version = answer.said;
            return new Program(name, asked.command, version.lines().filter(it -> it.startsWith("proof ")).findFirst().orElse("proof unknown"));
        }

        /** Throws if node is too old. */
        private static void checkNode(String name) {
            String node = new Program(name, List.of("node"), "").answer("-v").said;
            Matcher major = Pattern.compile("v([0-9]{1,9})").matcher(node);
            if (major.lookingAt() && Integer.parseInt(major.group(1)) < 18) throw new NoVerdict(OLD_NODE.formatted(node, name));
        }

        private Answer answer(String... words) {
            List<String> all = new ArrayList<>(command);
            all.addAll(List.of(words));
            ProcessBuilder made = new ProcessBuilder(all);
            if (words[0].equals("--version") && command.size() == 1) made.redirectError(ProcessBuilder.Redirect.INHERIT); // (the stderr of a program is not captured: ./listset first builds the judge and prints its progress there)
            try {
                Process process = made.start();
                process.getOutputStream().close();
                String said = new String(process.getInputStream().readAllBytes()), errors = new String(process.getErrorStream().readAllBytes());
                return new Answer((said.isEmpty() ? errors : said).strip(), process.waitFor());
            } catch (IOException none) {
                throw new NoVerdict((new File(name).isDirectory() ? IS_FOLDER : command.size() > 1 ? NO_NODE : NO_JUDGE).formatted(name));
            } catch (InterruptedException why) {
                throw new NoVerdict("the test was interrupted: ", why);
            }
        }

        Judgement judged(Path recording) {
            Answer answer = answer("judge", recording.toString());
            Matcher ok = OVERLAPPED.matcher(answer.said);
            if (answer.status == 0 && ok.lookingAt()) return new Judgement(null, Long.parseLong(ok.group(1)));
            if (answer.status == 1 && answer.said.startsWith("not linearizable")) return new Judgement(answer.said, 0);
            String first = answer.said.isEmpty() ? "nothing" : answer.said.lines().findFirst().get();
            throw new NoVerdict(NO_VERDICT.formatted(name, first));
        }
    }
}
