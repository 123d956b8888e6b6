import com.github.benmanes.caffeine.cache.Caffeine;
import java.io.DataInputStream;

/** The hits of Caffeine on standard input: how many gets, and their keys, as numbers of eight bytes, highest first. */
class Hits {
    public static void main(String[] capacity) throws Exception {
        var cache = Caffeine.newBuilder().maximumSize(Long.parseLong(capacity[0])).executor(Runnable::run).<Long, Long>build();
        var input = new DataInputStream(new java.io.BufferedInputStream(System.in));
        long hits = 0;
        for (long left = input.readLong(); left > 0; left--) {
            long key = input.readLong();
            if (cache.getIfPresent(key) == null) cache.put(key, key);
            else hits++;
        }
        System.out.println(hits);
    }
}
