import java.util.ArrayList;
import java.util.List;
import java.util.concurrent.CountDownLatch;
import java.util.concurrent.Flow;
import java.util.concurrent.ForkJoinPool;
import java.util.concurrent.SubmissionPublisher;

/**
 * Prints the nanoseconds in which the JDK's SubmissionPublisher gives items to subscribers that count them, as `deliveries_bench fast` does:
 * from the start of the submitters' threads until the pool has ended. Rounds before the last one warm it up.
 *
 * <p>Usage: java Deliveries WORKERS SUBMITTERS SUBSCRIBERS CAPACITY BYTES ITEMS [ROUNDS]
 */
public class Deliveries {
    /** Counts what it is told, and requests all of it. */
    static final class Counter implements Flow.Subscriber<byte[]> {
        final CountDownLatch done = new CountDownLatch(1);
        long items;

        @Override
        public void onSubscribe(Flow.Subscription subscription) {
            subscription.request(Long.MAX_VALUE);
        }

        @Override
        public void onNext(byte[] text) {
            items++;
        }

        @Override
        public void onError(Throwable error) {
            error.printStackTrace();
            System.exit(1);
        }

        @Override
        public void onComplete() {
            done.countDown();
        }
    }

    static long round(int workers, int submitters, int subscribers, int capacity, int bytes, int items) throws Exception {
        ForkJoinPool pool = new ForkJoinPool(workers, ForkJoinPool.defaultForkJoinWorkerThreadFactory, null, true);
        SubmissionPublisher<byte[]> publisher = new SubmissionPublisher<>(pool, capacity);
        List<Counter> counters = new ArrayList<>();
        for (int i = 0; i < subscribers; i++) {
            counters.add(new Counter());
            publisher.subscribe(counters.get(i));
        }
        byte[] text = new byte[bytes];
        int share = items / submitters;
        List<Thread> threads = new ArrayList<>();
        for (int i = 0; i < submitters; i++) {
            threads.add(new Thread(() -> {
                for (int k = 0; k < share; k++) {
                    // As much as the other publisher does: a text of its own for each item.
                    publisher.submit(text.clone());
                }
            }));
        }
        long start = System.nanoTime();
        for (Thread thread : threads) {
            thread.start();
        }
        for (Thread thread : threads) {
            thread.join();
        }
        publisher.close();
        for (Counter counter : counters) {
            counter.done.await();
        }
        pool.shutdown();
        long spent = System.nanoTime() - start;
        for (Counter counter : counters) {
            if (counter.items != (long) share * submitters) {
                System.exit(1);
            }
        }
        return spent;
    }

    public static void main(String[] words) throws Exception {
        int[] n = new int[words.length];
        for (int i = 0; i < words.length; i++) {
            n[i] = Integer.parseInt(words[i]);
        }
        int rounds = n.length > 6 ? n[6] : 4;
        long spent = 0;
        for (int i = 0; i < rounds; i++) {
            spent = round(n[0], n[1], n[2], n[3], n[4], n[5]);
        }
        System.out.println(spent);
    }
}
