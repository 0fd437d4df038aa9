import java.io.IOException;
import java.io.UncheckedIOException;
import java.util.Queue;
import java.util.concurrent.ConcurrentLinkedQueue;
import java.util.concurrent.Flow;
import org.reactivestreams.tck.TestEnvironment;
import org.reactivestreams.tck.flow.FlowPublisherVerification;
import org.testng.annotations.Test;

/** The rules of Reactive Streams for publishers, each tried on a console of its own. */
@Test
public final class ConsolePublisherTest extends FlowPublisherVerification<Integer> {
    /** How many milliseconds a signal may take, and for how long none must come where none may. */
    private static final long SECOND = 1000, QUIET = 200;

    private final String program = System.getProperty("console");
    private final Queue<ConsolePublisher> made = new ConcurrentLinkedQueue<>();

    private final TestEnvironment environment;

    public ConsolePublisherTest() {
        this(new TestEnvironment(SECOND, QUIET));
    }

    private ConsolePublisherTest(TestEnvironment environment) {
        super(environment, SECOND);
        this.environment = environment;
    }

    @Override
    public Flow.Publisher<Integer> createFlowPublisher(long elements) {
        try {
            ConsolePublisher publisher = new ConsolePublisher(program, elements);
            made.add(publisher);
            return publisher;
        } catch (IOException error) {
            throw new UncheckedIOException(error);
        }
    }

    @Override
    public Flow.Publisher<Integer> createFailedFlowPublisher() {
        try {
            ConsolePublisher publisher = ConsolePublisher.failed(program);
            made.add(publisher);
            return publisher;
        } catch (IOException error) {
            throw new UncheckedIOException(error);
        }
    }

    /** Ends the consoles of a test. It fails if one printed what it may not, or what the TCK took for an error when the test had ended. */
    void check() {
        String fault = null;
        for (ConsolePublisher publisher = made.poll(); publisher != null; publisher = made.poll()) {
            String found = faultOf(publisher);
            fault = fault == null ? found : fault;
        }
        if (fault != null) {
            throw new AssertionError(fault);
        }
        environment.verifyNoAsyncErrorsNoDelay();
    }

    private static String faultOf(ConsolePublisher publisher) {
        try (publisher) {
            return publisher.settle();
        } catch (InterruptedException interrupted) {
            return interrupted.toString();
        }
    }
}
