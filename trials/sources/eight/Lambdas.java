package lambdas;

import java.io.Serializable;
import java.util.Arrays;
import java.util.Comparator;
import java.util.List;
import java.util.Map;
import java.util.concurrent.Callable;
import java.util.function.BiFunction;
import java.util.function.Function;
import java.util.function.IntFunction;
import java.util.function.Supplier;
import java.util.stream.Collectors;

/** Lambdas and references to methods. */
public class Lambdas {
    private int captured = 3;

    interface Three<A, B, C> {
        long apply(A first, B second, C third, long more);
    }

    Supplier<Integer> field = () -> captured++;
    Function<String, Integer> length = String::length;
    Supplier<List<String>> fresh = java.util.ArrayList::new;
    IntFunction<int[][]> array = int[][]::new;
    BiFunction<Object, Object, Boolean> same = Object::equals;
    Three<Integer, Long, Double> three = (a, b, c, d) -> a + b + c.longValue() + d;
    Runnable kept = (Runnable & Serializable) () -> { };

    Map<Integer, List<String>> grouped(List<String> words) {
        return words.stream()
            .filter(word -> !word.isEmpty())
            .sorted(Comparator.comparing(String::length).thenComparing(Comparator.reverseOrder()))
            .collect(Collectors.groupingBy(String::length, Collectors.mapping(this::shown, Collectors.toList())));
    }

    private String shown(String word) {
        return word + captured;
    }

    Callable<Callable<String>> nested(String text) {
        return () -> () -> text + captured + super.hashCode();
    }

    static int total(Integer... numbers) {
        return Arrays.stream(numbers).mapToInt(Integer::intValue).sum();
    }
}
