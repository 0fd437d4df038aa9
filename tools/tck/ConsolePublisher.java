import java.io.BufferedReader;
import java.io.BufferedWriter;
import java.io.IOException;
import java.io.InputStreamReader;
import java.io.OutputStreamWriter;
import java.nio.charset.StandardCharsets;
import java.util.Map;
import java.util.Queue;
import java.util.Set;
import java.util.concurrent.BlockingQueue;
import java.util.concurrent.ConcurrentHashMap;
import java.util.concurrent.ConcurrentLinkedQueue;
import java.util.concurrent.CountDownLatch;
import java.util.concurrent.Flow;
import java.util.concurrent.LinkedBlockingQueue;
import java.util.concurrent.Semaphore;
import java.util.concurrent.TimeUnit;
import java.util.concurrent.atomic.AtomicBoolean;
import java.util.concurrent.atomic.AtomicInteger;
import java.util.function.Consumer;

/**
 * A publisher of Java whose subscriptions are those of a console of its own: each call types a line, and each line that the console prints of
 * a subscriber becomes a call of that subscriber. It keeps no items and no demand. The items are the numbers from 0 on, which one source of
 * the console submits once the first request has come, so that all subscribers of a test are there; then the console is closed.
 *
 * What is not the console's: that callbacks come one after the other and that `request` doesn't recurse, since one thread makes all callbacks
 * and another one types; that a null is refused; the messages of exceptions; and when the reference to a subscriber is dropped. After a cancel
 * that is done once the console says that so many subscriptions fewer are live.
 *
 * Whatever the console prints of a subscriber is passed on, also after its end. What comes after the end, what nobody is left for, and what a
 * callback throws are faults, which {@link #settle} tells.
 */
final class ConsolePublisher implements Flow.Publisher<Integer>, AutoCloseable {
    private static final String SOURCE = "1";

    /** For how many seconds an answer is waited for. */
    private static final long PATIENCE = 10;

    private final Process console;
    private final BlockingQueue<String> lines = new LinkedBlockingQueue<>();
    private final Queue<Consumer<String>> answers = new ConcurrentLinkedQueue<>();
    private final Map<String, Flow.Subscriber<? super Integer>> subscribers = new ConcurrentHashMap<>();
    private final Set<String> ended = ConcurrentHashMap.newKeySet();
    private final Queue<String> faults = new ConcurrentLinkedQueue<>();
    private final Semaphore submitted = new Semaphore(0);
    private final AtomicInteger names = new AtomicInteger();
    private final AtomicBoolean isBegun = new AtomicBoolean();
    private final long elements;

    /** Publishes so many numbers. */
    ConsolePublisher(String program, long elements) throws IOException {
        this.elements = elements;
        console = new ProcessBuilder(program, "--workers", "2", "--cap", "16")
                .redirectError(ProcessBuilder.Redirect.INHERIT)
                .start();
        start(this::read);
        start(this::write);
    }

    /** Publishes nothing: it is closed with an error. */
    static ConsolePublisher failed(String program) throws IOException {
        ConsolePublisher publisher = new ConsolePublisher(program, 0);
        publisher.type("fail 7", answer -> {});
        return publisher;
    }

    @Override
    public void subscribe(Flow.Subscriber<? super Integer> subscriber) {
        if (subscriber == null) {
            throw new NullPointerException("the subscriber is null");
        }
        String name = "s" + names.incrementAndGet();
        subscribers.put(name, subscriber);
        type("sub " + name + " 0", answer -> {
            if (!answer.equals("sub " + name)) {
                throw new IllegalStateException(answer);
            }
        });
    }

    /** Waits until all that the console has printed was passed on. The first fault, or null if there was none. */
    String settle() throws InterruptedException {
        CountDownLatch isAnswered = new CountDownLatch(1);
        type("lag", answer -> isAnswered.countDown());
        if (!isAnswered.await(PATIENCE, TimeUnit.SECONDS)) {
            faults.add("the console gives no answer");
        }
        return faults.peek();
    }

    @Override
    public void close() {
        console.destroyForcibly();
    }

    private void start(Runnable task) {
        Thread thread = new Thread(task);
        thread.setDaemon(true);
        thread.start();
    }

    /** Has a line typed, and its answer looked at. The two queues keep one order. */
    private synchronized void type(String line, Consumer<String> answer) {
        answers.add(answer);
        lines.add(line);
    }

    private void write() {
        try (BufferedWriter writer =
                new BufferedWriter(new OutputStreamWriter(console.getOutputStream(), StandardCharsets.US_ASCII))) {
            while (true) {
                writer.write(lines.take());
                writer.newLine();
                writer.flush();
            }
        } catch (IOException | InterruptedException closed) {
            // The console was closed.
        }
    }

    private void read() {
        try (BufferedReader reader =
                new BufferedReader(new InputStreamReader(console.getInputStream(), StandardCharsets.US_ASCII))) {
            for (String line = reader.readLine(); line != null; line = reader.readLine()) {
                try {
                    hear(line);
                } catch (RuntimeException thrown) {
                    faults.add(line + ": " + thrown);
                }
            }
        } catch (IOException closed) {
            // The console was closed.
        }
    }

    private void hear(String line) {
        if (line.startsWith("= submit ") && !line.contains(" waits for ")) {
            submitted.release();
        } else if (line.startsWith("= ")) {
            answers.remove().accept(line.substring(2));
        } else {
            String[] words = line.split(" ", 3);
            signal(words[0], words[1], words.length > 2 ? words[2] : "");
        }
    }

    /** Passes on what the console prints of a subscriber. */
    private void signal(String name, String signal, String rest) {
        if (ended.contains(name)) {
            faults.add("after the end: " + name + " " + signal + " " + rest);
        }
        Flow.Subscriber<? super Integer> subscriber = subscribers.get(name);
        if (subscriber == null) {
            throw new IllegalStateException("nobody is left for it");
        }
        switch (signal) {
            case "subscribed":
                subscriber.onSubscribe(new Typed(name));
                break;
            case "next":
                subscriber.onNext(Integer.valueOf(rest));
                break;
            case "complete":
                ended.add(name);
                subscriber.onComplete();
                break;
            default:
                ended.add(name);
                subscriber.onError(
                        switch (rest) {
                            case "argument" -> new IllegalArgumentException("rule 3.9: non-positive subscription request");
                            case "state" -> new IllegalStateException("subscribed twice");
                            default -> new Exception(rest);
                        });
        }
    }

    /** Submits the numbers, each once the one before was answered, and closes. */
    private void publish() {
        try {
            for (long number = 0; number < elements; number++) {
                synchronized (this) {
                    lines.add("submit " + SOURCE + " " + number);
                }
                submitted.acquire();
            }
            type("close", answer -> {});
        } catch (InterruptedException interrupted) {
            // Nobody interrupts this thread.
        }
    }

    /** Drops the reference to a subscriber that has cancelled, once the console has no more live subscriptions than there are others. */
    private void forget(String name) {
        type("subscribers", answer -> {
            long others = subscribers.keySet().stream().filter(other -> !other.equals(name) && !ended.contains(other)).count();
            if (ended.contains(name) || Long.parseLong(answer.split(" ")[1]) <= others) {
                subscribers.remove(name);
            } else {
                forget(name);
            }
        });
    }

    /** A subscription: it types `request` and `cancel`. */
    private final class Typed implements Flow.Subscription {
        private final String name;
        private final AtomicBoolean isCancelled = new AtomicBoolean();

        Typed(String name) {
            this.name = name;
        }

        @Override
        public void request(long number) {
            type("request " + name + " " + number, answer -> {});
            if (isBegun.compareAndSet(false, true)) {
                start(ConsolePublisher.this::publish);
            }
        }

        @Override
        public void cancel() {
            type("cancel " + name, answer -> {});
            if (isCancelled.compareAndSet(false, true)) {
                forget(name);
            }
        }
    }
}
