import java.util.concurrent.Flow;
import java.util.concurrent.ForkJoinPool;
import java.util.concurrent.SubmissionPublisher;
import java.util.concurrent.atomic.AtomicLong;

/**
 * Prints the nanoseconds that items take together, each from the call of submit until the one subscriber was told it, who is at rest before, as
 * `deliveries_bench alone` does. Rounds before the last one warm it up.
 *
 * <p>Usage: java Alone WORKERS ITEMS PAUSE [ROUNDS], with the pause before each item in microseconds
 */
public class Alone {
    /** Counts where another thread looks. */
    static final class Bell implements Flow.Subscriber<byte[]> {
        final AtomicLong rung = new AtomicLong();

        @Override
        public void onSubscribe(Flow.Subscription subscription) {
            subscription.request(Long.MAX_VALUE);
        }

        @Override
        public void onNext(byte[] text) {
            rung.incrementAndGet();
        }

        @Override
        public void onError(Throwable error) {
            error.printStackTrace();
            System.exit(1);
        }

        @Override
        public void onComplete() {
        }
    }

    static long round(int workers, int items, int pause) throws Exception {
        ForkJoinPool pool = new ForkJoinPool(workers, ForkJoinPool.defaultForkJoinWorkerThreadFactory, null, true);
        SubmissionPublisher<byte[]> publisher = new SubmissionPublisher<>(pool, 256);
        Bell bell = new Bell();
        publisher.subscribe(bell);
        byte[] text = new byte[16];
        long spent = 0;
        for (int item = 0; item < items; item++) {
            Thread.sleep(pause / 1000, pause % 1000 * 1000);
            long start = System.nanoTime();
            publisher.submit(text.clone());
            while (bell.rung.get() <= item) {
                Thread.onSpinWait();
            }
            spent += System.nanoTime() - start;
        }
        publisher.close();
        pool.shutdown();
        return spent;
    }

    public static void main(String[] words) throws Exception {
        int rounds = words.length > 3 ? Integer.parseInt(words[3]) : 4;
        long spent = 0;
        for (int i = 0; i < rounds; i++) {
            spent = round(Integer.parseInt(words[0]), Integer.parseInt(words[1]), Integer.parseInt(words[2]));
        }
        System.out.println(spent);
    }
}
