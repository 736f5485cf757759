package replay;

import java.io.ByteArrayInputStream;
import java.io.IOException;
import java.io.InputStream;
import java.io.PrintStream;

/** One call of the tool: 0 where all agrees, 1 where something differs, 2 where something can't be read or mapped. */
public final class Session implements Runnable {
    private static final int SECONDS_OF_A_RUN = 20;
    private final String[] words;
    private final InputStream listing;
    private final PrintStream out;
    private final PrintStream err;
    private volatile Judge judge;
    private volatile int status = 2;

    public Session(String[] words, InputStream listing, PrintStream out, PrintStream err) {
        this.words = words;
        this.listing = listing;
        this.out = out;
        this.err = err;
    }

    @Override
    public void run() {
        try {
            status = report(Order.of(words));
        } catch (Fault fault) {
            err.println("Replay: " + fault.getMessage());
        } catch (IOException fault) {
            err.println("Replay: standard input: " + fault.getMessage());
        } catch (OutOfMemoryError large) {
            err.println("Replay: too little memory: give java more, as -Xmx4g, or smaller bounds");
        }
    }

    private int report(Order order) throws Fault, IOException {
        Finitization bounds = Finitization.of(order.finitization);
        Sources sources = Sources.compiled(order.sources);
        Model model = new Model(sources, bounds);
        byte[] given = this.listing.readAllBytes();
        if (order.call != null && ContractTests.isReport(given)) {
            out.print(new ContractTests(model, bounds, order).text(given));
            return 0;
        }
        Listing listing = Listing.of(new ByteArrayInputStream(given));
        model.leaveOutersOut(listing.rows());
        if (order.call != null) {
            out.print(new Tests(model, order.call).text(listing.rows()));
            return 0;
        }
        boolean spent = listing.end().startsWith("spent");
        if (order.all && !listing.whole() && !spent) {
            throw new Fault("standard input is no whole listing, which --all needs: it ends with '" + listing.end() + "'");
        }
        judge = new Judge(model, bounds.fuel);
        Comparison comparison = new Comparison(model, judge, out);
        Space space = order.all ? new Space(model, bounds, order.most, order.plain) : null;
        comparison.rows(listing.rows());
        if (order.all && spent) {
            space.run(comparison::endless);
        } else if (order.all) {
            space.run(comparison::candidate);
            comparison.surplus();
        }
        return comparison.end();
    }

    /** Waits for the end, or for a run that the counted steps don't end, as one within a library's loop. */
    public int await(Thread thread) throws InterruptedException {
        long known = -1;
        int seconds = 0;
        while (thread.isAlive()) {
            thread.join(1000);
            long runs = judge == null ? -1 : judge.runs;
            seconds = runs == known && runs >= 0 && judge.running ? seconds + 1 : 0;
            known = runs;
            if (seconds > SECONDS_OF_A_RUN) {
                err.println("Replay: repOk takes more than " + SECONDS_OF_A_RUN + " seconds on " + judge.subject());
                return 2;
            }
        }
        return status;
    }
}
