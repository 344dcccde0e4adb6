// The hulls of JTS's `ConvexHull`, of coordinates that are doubles. It reads and writes what agreement.hpp says.

import java.io.BufferedReader;
import java.io.BufferedWriter;
import java.io.IOException;
import java.io.InputStreamReader;
import java.io.OutputStreamWriter;
import java.io.PrintWriter;
import java.io.StreamTokenizer;
import java.util.Arrays;
import org.locationtech.jts.algorithm.ConvexHull;
import org.locationtech.jts.geom.Coordinate;
import org.locationtech.jts.geom.GeometryFactory;

final class Agreement {
    private static final GeometryFactory FACTORY = new GeometryFactory();

    private static double next(StreamTokenizer numbers) throws IOException {
        numbers.nextToken();
        return numbers.nval;
    }

    private static long product(Coordinate first, Coordinate one, Coordinate two) {
        long east = (long) (one.x - first.x), north = (long) (one.y - first.y);
        return east * (long) (two.y - first.y) - (long) (two.x - first.x) * north;
    }

    private static String hullOf(Coordinate[] points) {
        Coordinate[] corners = new ConvexHull(points, FACTORY).getConvexHull().getCoordinates();
        int count = corners.length;
        while (count > 1 && corners[count - 1].equals2D(corners[0])) {
            count--;
        }
        long sum = 0;
        for (int i = 1; i < count; i++) {
            sum += product(corners[0], corners[i - 1], corners[i]);
        }
        return count + " " + Math.abs(sum);
    }

    public static void main(String[] arguments) throws IOException {
        StreamTokenizer numbers = new StreamTokenizer(new BufferedReader(new InputStreamReader(System.in)));
        try (PrintWriter out = new PrintWriter(new BufferedWriter(new OutputStreamWriter(System.out)))) {
            while (numbers.nextToken() != StreamTokenizer.TT_EOF) {
                Coordinate[] points = new Coordinate[(int) numbers.nval];
                for (int i = 0; i < points.length; i++) {
                    points[i] = new Coordinate(next(numbers), next(numbers));
                }
                for (int n = 1; n <= points.length; n++) {
                    out.println(hullOf(Arrays.copyOf(points, n)));
                }
            }
        }
    }
}
