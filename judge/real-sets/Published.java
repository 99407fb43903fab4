import java.util.Collection;
import java.util.HashSet;
import java.util.Map;
import java.util.Set;
import java.util.concurrent.ConcurrentHashMap;
import java.util.concurrent.ConcurrentSkipListSet;
import java.util.concurrent.CopyOnWriteArraySet;
import listset.Judge;
import org.apache.commons.collections.FastHashMap;
import org.apache.commons.collections4.map.StaticBucketMap;
import org.h2.mvstore.MVStore;
import org.jctools.maps.NonBlockingHashMapLong;
import org.jctools.maps.NonBlockingHashSet;
import scala.collection.concurrent.TrieMap;

import static java.util.Collections.synchronizedSet;

/**
 * Judges sets built on the libraries of Java, JCTools, H2, Scala and commons-collections. The first argument is the
 * number of tests for each set. An optional second argument is the name of the only set to judge. Prints a table row
 * for each set, and each set's shortest refusal on standard error.
 */
final class Published {
    private static int tests = 1;
    private static String only = "";

    private Published() { }

    private static <S> void judge(String name, Judge.Make<S> make, Judge.Call<S, Integer> add, Judge.Call<S, Integer> remove, Judge.Call<S, Integer> contains) {
        if (!only.isEmpty() && !only.equals(name)) return;
        int refused = 0;
        String shortest = "";
        for (int i = 0; i < tests; i++) {
            try {
                Judge.judge(make, add, remove, contains, new Judge.Options().withSeed(1 + 1000L * i));
            } catch (Judge.Failed failed) {
                if (refused++ == 0 || failed.said.length() < shortest.length()) shortest = failed.said;
                new java.io.File(failed.file).delete();
            }
        }
        System.out.printf("| %s | %d of %d |%n", name, refused, tests);
        if (refused > 0) System.err.println(name + ":\n" + shortest);
    }

    private static void judge(String name, Judge.Make<Set<Integer>> make) { judge(name, make, Set::add, Set::remove, Set::contains); }

    /** Judges the keys of a map. */
    private static void judgeMap(String name, Judge.Make<Map<Integer, Boolean>> make) {
        judge(name, make, (map, key) -> map.putIfAbsent(key, true) == null, (map, key) -> map.remove(key) != null, Map::containsKey);
    }

    /** Judges the keys of a map whose only atomic call that adds a key is {@code put}. */
    private static void judgePuts(String name, Judge.Make<Map<Integer, Boolean>> make) {
        judge(name, make, (map, key) -> map.put(key, true) == null, (map, key) -> map.remove(key) != null, Map::containsKey);
    }

    private static Map<Integer, Boolean> fast() {
        FastHashMap made = new FastHashMap();
        made.setFast(true);
        @SuppressWarnings("unchecked") Map<Integer, Boolean> map = made;
        return map;
    }

    public static void main(String[] words) {
        if (words.length > 0) tests = Integer.parseInt(words[0]);
        if (words.length > 1) only = words[1];
        judge("java.util.concurrent ConcurrentSkipListSet", ConcurrentSkipListSet::new);
        judge("java.util.concurrent ConcurrentHashMap.newKeySet", ConcurrentHashMap::newKeySet);
        judge("java.util.concurrent CopyOnWriteArraySet", CopyOnWriteArraySet::new);
        judge("java.util synchronizedSet of HashSet", () -> synchronizedSet(new HashSet<>()));
        judge("JCTools NonBlockingHashSet", NonBlockingHashSet::new);
        judge("JCTools NonBlockingHashMapLong", NonBlockingHashMapLong<Boolean>::new, (map, key) -> map.putIfAbsent((long) key, (Boolean) true) == null,
            (map, key) -> map.remove((long) key) != null, (map, key) -> map.containsKey((long) key));
        judgeMap("H2 MVMap", () -> MVStore.open(null).openMap("keys"));
        judge("Scala TrieMap", TrieMap<Integer, Boolean>::new, (map, key) -> map.putIfAbsent(key, true).isEmpty(), (map, key) -> map.remove(key).isDefined(), TrieMap::contains);
        judgePuts("commons-collections 4 StaticBucketMap", StaticBucketMap::new);
        judge("commons-collections 4 SynchronizedCollection of HashSet", () -> org.apache.commons.collections4.collection.SynchronizedCollection.synchronizedCollection(new HashSet<Integer>()),
            Collection::add, Collection::remove, Collection::contains);
        judgePuts("commons-collections 3 FastHashMap, fast", Published::fast);
        judge("java.util HashSet, without a lock", HashSet::new);
    }
}
