import java.io.BufferedOutputStream;
import java.io.IOException;
import java.io.OutputStream;
import java.nio.charset.StandardCharsets;
import java.util.ArrayList;
import java.util.Arrays;
import java.util.List;
import java.util.TreeMap;
import java.util.concurrent.CountDownLatch;
import java.util.concurrent.Flow;
import java.util.concurrent.ForkJoinPool;
import java.util.concurrent.SubmissionPublisher;

/**
 * Does on the JDK's SubmissionPublisher what `lines_demo threads` does: publishes lines `SOURCE TEXT` of standard input from a thread for each
 * source, and reports what each subscriber was told. It is for measuring: the input has to be in order, and each subscriber has to request all
 * lines.
 *
 * <p>Usage: java Lines WORKERS CAPACITY NAME:D ..
 */
public class Lines {
    /** A line of a source. */
    record Item(int source, byte[] text) {}

    /** The lines of a source, as the report has them. */
    static final class Section {
        final byte[] beginning;
        byte[] bytes = new byte[256];
        int length;

        Section(byte[] beginning) {
            this.beginning = beginning;
        }

        void add(byte[] text) {
            int end = length + beginning.length + text.length + 1;
            if (end > bytes.length) {
                bytes = Arrays.copyOf(bytes, Math.max(2 * bytes.length, end));
            }
            System.arraycopy(beginning, 0, bytes, length, beginning.length);
            System.arraycopy(text, 0, bytes, length + beginning.length, text.length);
            bytes[end - 1] = '\n';
            length = end;
        }
    }

    /** Makes up its part of the report while it is told. */
    static final class Reporter implements Flow.Subscriber<Item> {
        final String name;
        final long demand;
        final TreeMap<Integer, Section> sections = new TreeMap<>();
        final CountDownLatch done = new CountDownLatch(1);
        int items;

        Reporter(String name, long demand, Iterable<Integer> sources) {
            this.name = name;
            this.demand = demand;
            for (int source : sources) {
                sections.put(source, new Section((name + " " + source + " ").getBytes(StandardCharsets.US_ASCII)));
            }
        }

        @Override
        public void onSubscribe(Flow.Subscription subscription) {
            subscription.request(demand);
        }

        @Override
        public void onNext(Item item) {
            sections.get(item.source).add(item.text);
            items++;
        }

        @Override
        public void onError(Throwable error) {
            error.printStackTrace();
            System.exit(1);
        }

        @Override
        public void onComplete() {
            done.countDown();
        }
    }

    /** The lines of each source, by its number in ascending order. */
    static TreeMap<Integer, List<byte[]>> read(byte[] bytes) {
        TreeMap<Integer, List<byte[]>> sources = new TreeMap<>();
        int start = 0;
        while (start < bytes.length) {
            int end = start;
            while (end < bytes.length && bytes[end] != '\n') {
                end++;
            }
            int source = 0;
            int at = start;
            while (bytes[at] != ' ') {
                source = source * 10 + bytes[at++] - '0';
            }
            byte[] text = new byte[end - at - 1];
            System.arraycopy(bytes, at + 1, text, 0, text.length);
            sources.computeIfAbsent(source, number -> new ArrayList<>()).add(text);
            start = end + 1;
        }
        return sources;
    }

    static void report(List<Reporter> reporters) throws IOException {
        try (OutputStream out = new BufferedOutputStream(System.out, 1 << 16)) {
            for (Reporter reporter : reporters) {
                for (Section section : reporter.sections.values()) {
                    out.write(section.bytes, 0, section.length);
                }
                out.write((reporter.name + " complete " + reporter.items + "\n").getBytes(StandardCharsets.US_ASCII));
            }
            out.write("drained 1\n".getBytes(StandardCharsets.US_ASCII));
        }
    }

    public static void main(String[] words) throws Exception {
        int workers = Integer.parseInt(words[0]);
        int capacity = Integer.parseInt(words[1]);
        TreeMap<Integer, List<byte[]>> sources = read(System.in.readAllBytes());
        List<Reporter> reporters = new ArrayList<>();
        for (int i = 2; i < words.length; i++) {
            String[] parts = words[i].split(":");
            reporters.add(new Reporter(parts[0], Long.parseLong(parts[1]), sources.keySet()));
        }
        ForkJoinPool pool = new ForkJoinPool(workers, ForkJoinPool.defaultForkJoinWorkerThreadFactory, null, true);
        SubmissionPublisher<Item> publisher = new SubmissionPublisher<>(pool, capacity);
        reporters.forEach(publisher::subscribe);
        List<Thread> threads = new ArrayList<>();
        sources.forEach((source, texts) -> threads.add(new Thread(() -> {
            for (byte[] text : texts) {
                publisher.submit(new Item(source, text));
            }
        })));
        for (Thread thread : threads) {
            thread.start();
        }
        for (Thread thread : threads) {
            thread.join();
        }
        publisher.close();
        for (Reporter reporter : reporters) {
            reporter.done.await();
        }
        report(reporters);
        pool.shutdown();
    }
}
