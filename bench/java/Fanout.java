import java.io.BufferedOutputStream;
import java.io.FileOutputStream;
import java.io.IOException;
import java.io.InputStream;
import java.io.OutputStream;
import java.io.UncheckedIOException;
import java.nio.charset.StandardCharsets;
import java.util.ArrayList;
import java.util.Arrays;
import java.util.List;
import java.util.concurrent.CountDownLatch;
import java.util.concurrent.Flow;
import java.util.concurrent.ForkJoinPool;
import java.util.concurrent.SubmissionPublisher;

/**
 * Does on the JDK's SubmissionPublisher what `fanout` does with sinks that wait: publishes the lines of standard input, and each sink writes
 * those that have its text.
 *
 * <p>Usage: java Fanout WORKERS CAPACITY FILE[:TEXT] ..
 */
public class Fanout {
    /** Writes the lines that have its text to a file. */
    static final class Sink implements Flow.Subscriber<byte[]> {
        final CountDownLatch done = new CountDownLatch(1);
        final OutputStream file;
        final byte[] text;

        Sink(String word) throws IOException {
            int colon = word.indexOf(':');
            file = new BufferedOutputStream(new FileOutputStream(colon < 0 ? word : word.substring(0, colon)), 65536);
            text = (colon < 0 ? "" : word.substring(colon + 1)).getBytes(StandardCharsets.ISO_8859_1);
        }

        @Override
        public void onSubscribe(Flow.Subscription subscription) {
            subscription.request(Long.MAX_VALUE);
        }

        @Override
        public void onNext(byte[] line) {
            try {
                if (has(line)) {
                    file.write(line);
                }
            } catch (IOException error) {
                throw new UncheckedIOException(error);
            }
        }

        boolean has(byte[] line) {
            for (int at = 0; at + text.length <= line.length; at++) {
                if (Arrays.equals(line, at, at + text.length, text, 0, text.length)) {
                    return true;
                }
            }
            return false;
        }

        @Override
        public void onError(Throwable error) {
            error.printStackTrace();
            System.exit(1);
        }

        @Override
        public void onComplete() {
            try {
                file.close();
            } catch (IOException error) {
                throw new UncheckedIOException(error);
            }
            done.countDown();
        }
    }

    /** Publishes each line of these bytes that has its line feed, and tells where the rest begins. */
    static int publish(SubmissionPublisher<byte[]> publisher, byte[] room, int end) {
        int start = 0;
        for (int at = 0; at < end; at++) {
            if (room[at] == '\n') {
                publisher.submit(Arrays.copyOfRange(room, start, at + 1));
                start = at + 1;
            }
        }
        return start;
    }

    public static void main(String[] words) throws Exception {
        ForkJoinPool pool =
            new ForkJoinPool(Integer.parseInt(words[0]), ForkJoinPool.defaultForkJoinWorkerThreadFactory, null, true);
        SubmissionPublisher<byte[]> publisher = new SubmissionPublisher<>(pool, Integer.parseInt(words[1]));
        List<Sink> sinks = new ArrayList<>();
        for (String word : Arrays.asList(words).subList(2, words.length)) {
            sinks.add(new Sink(word));
            publisher.subscribe(sinks.get(sinks.size() - 1));
        }
        InputStream input = System.in;
        byte[] room = new byte[1 << 20];
        int waiting = 0;
        for (int read = input.read(room, 0, 65536); read > 0; read = input.read(room, waiting, 65536)) {
            int end = waiting + read;
            int start = publish(publisher, room, end);
            System.arraycopy(room, start, room, 0, end - start);
            waiting = end - start;
        }
        publisher.close();
        for (Sink sink : sinks) {
            sink.done.await();
        }
        pool.shutdown();
    }
}
