import network.Network;
import search.Cost;
import search.Costs;
import search.Journey;
import text.BadTextException;
import text.Words;

/** Answers how to go by train in a small network: {@code FROM TO minutes} or {@code FROM TO changes}. */
public final class Railway {
    private static final String[] LINES = {
        "junction Harbour 9",
        "track red Harbour Mill 7",
        "track red Mill Castle 6",
        "track red Castle Abbey 8",
        "track blue Harbour Market 3",
        "track blue Market Castle 4",
        "track green Abbey Hill 5",
        "track green Hill Market 12",
        "track ferry Island Cape 30",
    };

    private int answered;

    public static void main(String[] args) throws BadTextException {
        Railway railway = new Railway();
        Network network = railway.network();
        System.out.println(network.size() + " stations");
        if (args.length == 0) {
            railway.answer(network, "Harbour Abbey minutes");
            railway.answer(network, "Harbour Abbey changes");
            railway.answer(network, "Market Hill minutes");
            railway.answer(network, "Mill Island minutes");
            railway.answer(network, "Mill Moon minutes");
            railway.answer(network, "Mill Abbey luck");
        }
        for (String question : args) {
            System.out.println(railway.journey(network, question));
        }
        System.out.println(railway.answered + " answers");
    }

    private Network network() {
        Network network = new Network();
        try {
            for (int i = 0; i < LINES.length; i++) {
                network.read(LINES[i]);
            }
        } catch (BadTextException cause) {
            throw new IllegalStateException("the network can't be read", cause);
        }
        return network;
    }

    private void answer(Network network, String question) {
        try {
            System.out.println(journey(network, question));
        } catch (BadTextException fault) {
            System.out.println(fault.getMessage());
        } catch (RuntimeException fault) {
            System.out.println("sorry: " + fault.getMessage());
        } finally {
            answered++;
        }
    }

    private String journey(Network network, String question) throws BadTextException {
        Words words = new Words(question);
        String from = words.next();
        String to = words.next();
        Cost cost = Costs.named(words.next());
        if (cost == null) {
            throw new BadTextException("what does it cost in: " + question);
        }
        Journey journey = new Journey(network.station(from), network.station(to), cost);
        try {
            journey.run();
        } catch (RuntimeException cause) {
            throw new IllegalArgumentException("no answer to: " + question, cause);
        }
        return journey.text();
    }

    static void usage() {
        System.out.println("FROM TO minutes, or FROM TO changes");
    }
}
