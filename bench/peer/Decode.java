/*
 * The work of mmtf-java on files: the container read by MessagePackSerialization, all columns decoded by GenericDecoder.
 *
 * Prints for each file its name and the best time in nanoseconds, in one process: each file is decoded for some seconds
 * before times are taken, so that its code is compiled.
 */
import java.io.ByteArrayInputStream;
import java.io.IOException;
import java.nio.file.Files;
import java.nio.file.Path;
import org.rcsb.mmtf.dataholders.MmtfStructure;
import org.rcsb.mmtf.decoder.GenericDecoder;
import org.rcsb.mmtf.serialization.MessagePackSerialization;

public final class Decode {
    private static final long WARM_NANOSECONDS = 3_000_000_000L;
    private static final long TIMED_NANOSECONDS = 2_000_000_000L;

    private static final MessagePackSerialization READER = new MessagePackSerialization();

    private static GenericDecoder decode(byte[] data) throws IOException {
        MmtfStructure structure = READER.deserialize(new ByteArrayInputStream(data));
        return new GenericDecoder(structure);
    }

    /** The best time of the decodings within so many nanoseconds. */
    private static long bestWithin(byte[] data, long nanoseconds) throws IOException {
        long best = Long.MAX_VALUE;
        long end = System.nanoTime() + nanoseconds;
        while (System.nanoTime() < end) {
            long start = System.nanoTime();
            decode(data);
            best = Math.min(best, System.nanoTime() - start);
        }
        return best;
    }

    public static void main(String[] paths) {
        for (String path : paths) {
            try {
                byte[] data = Files.readAllBytes(Path.of(path));
                int atoms = decode(data).getxCoords().length;
                bestWithin(data, WARM_NANOSECONDS);
                String name = Path.of(path).getFileName().toString().replace(".mmtf", "");
                System.out.printf("%s\t%d\t%d%n", name, bestWithin(data, TIMED_NANOSECONDS), atoms);
            } catch (IOException error) {
                fail(path + " cannot be read: " + error.getMessage() + ".");
            } catch (RuntimeException error) {
                fail("mmtf-java fails on " + path + ": " + error + ".");
            }
        }
    }

    private static void fail(String sentence) {
        System.err.println(sentence);
        System.exit(1);
    }
}
