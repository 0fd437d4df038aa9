import java.util.ArrayList;
import java.util.List;
import org.testng.IHookCallBack;
import org.testng.IHookable;
import org.testng.ITestResult;
import org.testng.TestListenerAdapter;
import org.testng.TestNG;

/**
 * Runs the tests, and prints which failed and which were skipped, and how many of each kind there were. A test of an optional rule that finds
 * it broken is skipped by the TCK; here it has failed. Skipped are those alone that the TCK only names.
 */
public final class Run {
    private static final String UNTESTED = "Not verified by this TCK.";

    @SuppressWarnings("deprecation")
    public static void main(String[] words) {
        TestListenerAdapter heard = new TestListenerAdapter();
        TestNG runner = new TestNG(false);
        runner.setTestClasses(new Class<?>[] {ConsolePublisherTest.class});
        runner.setVerbose(0);
        runner.addListener((Object) heard);
        runner.addListener((Object) (IHookable) Run::runAndCheck);
        runner.setOutputDirectory(words[0]);
        runner.run();
        List<ITestResult> failures = new ArrayList<>(heard.getFailedTests());
        failures.addAll(heard.getConfigurationFailures());
        int skipped = 0;
        for (ITestResult it : heard.getSkippedTests()) {
            if (reason(it).endsWith(UNTESTED)) {
                skipped++;
                System.out.println("skipped " + it.getName() + reason(it));
            } else {
                failures.add(it);
            }
        }
        for (ITestResult it : failures) {
            System.out.println("FAILED " + it.getName() + reason(it).lines().findFirst().orElse(""));
        }
        int failed = failures.size();
        int passed = heard.getPassedTests().size();
        System.out.println(passed + " passed, " + failed + " failed, " + skipped + " skipped");
        System.exit(failed == 0 && passed > 0 ? 0 : 1);
    }

    /** Runs a test, and looks for faults of its consoles. */
    private static void runAndCheck(IHookCallBack test, ITestResult result) {
        test.runTestMethod(result);
        ((ConsolePublisherTest) result.getInstance()).check();
    }

    private static String reason(ITestResult it) {
        return it.getThrowable() == null ? "" : ": " + it.getThrowable().getMessage();
    }
}
