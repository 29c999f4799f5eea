// ImageJ's median filter, waiting to be timed: java -cp ij.jar ImageJMedian.java FOLDER
// It speaks as peers.py does: prints its key and name, answers the small picture, prints an empty line, and then
// answers each line `imagej PICTURE` with ns a pixel.
import ij.ImageJ;
import ij.Prefs;
import ij.plugin.filter.RankFilters;
import ij.process.ByteProcessor;
import java.io.BufferedReader;
import java.io.InputStreamReader;
import java.lang.management.ManagementFactory;
import java.lang.management.ThreadMXBean;
import java.nio.file.Files;
import java.nio.file.Path;
import java.util.Arrays;
import java.util.Locale;

public class ImageJMedian {
    // The processor time of all threads, in ns: ImageJ hands work to threads of its own.
    static long now() {
        ThreadMXBean threads = ManagementFactory.getThreadMXBean();
        return Arrays.stream(threads.getAllThreadIds()).map(threads::getThreadCpuTime).filter(time -> time > 0).sum();
    }

    // A binary PGM of 8 bits without comments, as the bench writes it: three lines and then the levels.
    static ByteProcessor read(Path path) throws Exception {
        byte[] file = Files.readAllBytes(path);
        String[] sides = new String(file, 0, Math.min(file.length, 32), "ISO-8859-1").split("\n")[1].split(" ");
        int width = Integer.parseInt(sides[0]), height = Integer.parseInt(sides[1]);
        return new ByteProcessor(width, height, Arrays.copyOfRange(file, file.length - width * height, file.length));
    }

    // Radius 1 is the block of 3 by 3.
    static String answer(RankFilters filter, Path folder, String given) throws Exception {
        ByteProcessor picture = read(folder.resolve(given + ".pgm"));
        long began = now();
        filter.rank(picture, 1.0, RankFilters.MEDIAN);
        long took = now() - began; // one run is a turn: it takes more than 20 ms
        if (!given.equals("small")) return String.format(Locale.ROOT, "%.4f", took / (double) picture.getPixelCount());
        StringBuilder filtered = new StringBuilder();
        for (byte level : (byte[]) picture.getPixels()) filtered.append(level & 255).append(' ');
        return filtered.toString();
    }

    public static void main(String[] words) throws Exception {
        Prefs.setThreads(1);
        RankFilters filter = new RankFilters(); // it asks for the number of threads here
        Path folder = Path.of(words[0]);
        BufferedReader lines = new BufferedReader(new InputStreamReader(System.in));
        System.out.printf("imagej\tImageJ %s Median, 8 bits%n", ImageJ.VERSION);
        System.out.println(answer(filter, folder, lines.readLine().split(" ")[1]));
        System.out.println();
        for (String line = lines.readLine(); line != null; line = lines.readLine())
            System.out.println(answer(filter, folder, line.split(" ")[1]));
        System.exit(0); // its threads would keep it alive
    }
}
