import java.lang.foreign.Arena;
import java.lang.foreign.FunctionDescriptor;
import java.lang.foreign.Linker;
import java.lang.foreign.MemorySegment;
import java.lang.foreign.SymbolLookup;
import java.lang.foreign.ValueLayout;
import java.lang.invoke.MethodHandle;
import java.util.ArrayList;
import java.util.List;
import java.util.concurrent.ConcurrentSkipListSet;
import java.util.concurrent.CyclicBarrier;
import java.util.stream.IntStream;

/**
 * Makes the same calls as foreign_calls.c, on a set of liblistset through Java's Foreign Function API, or on a
 * ConcurrentSkipListSet.
 */
final class ForeignCalls {
    private static final int QUOTA = 16_384, WARM_UP_CALLS = 60_000, WARM_UP_KEYS = 64;

    private interface Calls {
        boolean add(int key) throws Throwable;

        boolean remove(int key) throws Throwable;

        boolean contains(int key) throws Throwable;
    }

    /** A seat of a list (one thread's access to the set), called through liblistset.so. */
    private record Seat(MemorySegment at) implements Calls {
        private static final int SIZE = 128;
        private static final ValueLayout.OfByte U8 = ValueLayout.JAVA_BYTE;
        private static final ValueLayout.OfInt U32 = ValueLayout.JAVA_INT;
        private static final ValueLayout.OfLong U64 = ValueLayout.JAVA_LONG;
        private static final ValueLayout AT = ValueLayout.ADDRESS;
        private static final FunctionDescriptor OF_KEY = FunctionDescriptor.of(U8, AT, U32);
        private static final MethodHandle OPEN = function("open", FunctionDescriptor.of(U8, U8, U32, U32, U64, AT, U64, AT));
        private static final MethodHandle SPLIT = function("split", FunctionDescriptor.of(U8, AT, AT));
        private static final MethodHandle ADD = function("add", OF_KEY);
        private static final MethodHandle REMOVE = function("remove", OF_KEY);
        private static final MethodHandle CONTAINS = function("contains", OF_KEY);

        private static MethodHandle function(String name, FunctionDescriptor type) {
            SymbolLookup library = SymbolLookup.libraryLookup(System.getProperty("liblistset"), Arena.global());
            return Linker.nativeLinker().downcallHandle(library.find("listset_" + name).orElseThrow(), type);
        }

        private static Seat empty() {
            return new Seat(Arena.global().allocate(SIZE, SIZE));
        }

        static List<Seat> ofSet(byte list, int threads, int[] opening) throws Throwable {
            List<Seat> seats = new ArrayList<>(List.of(empty()));
            MemorySegment first = seats.get(0).at, keys = Arena.global().allocateFrom(U32, opening);
            isTrue((byte) OPEN.invokeExact(list, threads, QUOTA, 1L, keys, (long) opening.length, first) == 0);
            while (seats.size() < threads) {
                Seat split = empty();
                isTrue((byte) SPLIT.invokeExact(first, split.at) == 0);
                seats.add(split);
            }
            return seats;
        }

        private static boolean replied(byte reply) {
            isTrue(reply == 0 || reply == 1);
            return reply == 1;
        }

        public boolean add(int key) throws Throwable {
            return replied((byte) ADD.invokeExact(at, key));
        }

        public boolean remove(int key) throws Throwable {
            return replied((byte) REMOVE.invokeExact(at, key));
        }

        public boolean contains(int key) throws Throwable {
            return replied((byte) CONTAINS.invokeExact(at, key));
        }
    }

    private record OfJava(ConcurrentSkipListSet<Integer> keys) implements Calls {
        public boolean add(int key) {
            return keys.add(key);
        }

        public boolean remove(int key) {
            return keys.remove(key);
        }

        public boolean contains(int key) {
            return keys.contains(key);
        }
    }

    private static void isTrue(boolean holds) {
        if (!holds) {
            throw new IllegalStateException("a call was refused");
        }
    }

    private static List<? extends Calls> opened(String set, int threads, int keys) throws Throwable {
        int[] opening = IntStream.range(0, keys / 2).map(it -> 2 * it).toArray();
        if (!set.equals("skip-list")) {
            return Seat.ofSet((byte) (set.equals("lazy") ? 3 : 4), threads, opening);
        }
        ConcurrentSkipListSet<Integer> all = new ConcurrentSkipListSet<>();
        IntStream.of(opening).forEach(all::add);
        return IntStream.range(0, threads).mapToObj(it -> new OfJava(all)).toList();
    }

    private static void run(Calls of, int thread, int calls, int keys) throws Throwable {
        long drawn = 88172645463325252L + thread;
        int found = 0;
        for (int call = 0; call < calls; call++) {
            drawn = drawn * 6364136223846793005L + 1442695040888963407L;
            int key = Integer.remainderUnsigned((int) (drawn >>> 33), keys), kind = Integer.remainderUnsigned((int) (drawn >>> 20), 3);
            found += (kind == 0 ? of.add(key) : kind == 1 ? of.remove(key) : of.contains(key)) ? 1 : 0;
        }
        isTrue(found <= calls);
    }

    private static double nanoseconds(List<? extends Calls> all, int calls, int keys) throws Exception {
        CyclicBarrier begin = new CyclicBarrier(all.size() + 1);
        List<Thread> threads = IntStream.range(0, all.size()).mapToObj(thread -> new Thread(() -> {
            try {
                begin.await();
                run(all.get(thread), thread, calls, keys);
            } catch (Throwable fault) {
                fault.printStackTrace();
                System.exit(1);
            }
        })).toList();
        threads.forEach(Thread::start);
        long begun = System.nanoTime();
        begin.await();
        for (Thread it : threads) {
            it.join();
        }
        return (System.nanoTime() - begun) / ((double) all.size() * calls);
    }

    public static void main(String[] words) throws Throwable {
        int threads = Integer.parseInt(words[1]), calls = Integer.parseInt(words[2]), keys = Integer.parseInt(words[3]);
        // Makes three untimed runs, because the virtual machine compiles the calls during the first runs.
        for (int at = 0; at < 3; at++) {
            nanoseconds(opened(words[0], threads, WARM_UP_KEYS), WARM_UP_CALLS / threads, WARM_UP_KEYS);
        }
        System.out.printf("%.2f%n", nanoseconds(opened(words[0], threads, keys), calls, keys));
    }
}
