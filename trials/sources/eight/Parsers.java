package parsers;

import java.util.ArrayList;
import java.util.Collections;
import java.util.List;
import java.util.Objects;
import java.util.function.BiFunction;
import java.util.function.Function;
import java.util.function.Predicate;

/** A small library of parsers. */
@FunctionalInterface
interface Parser<T> {
    Result<T> parse(String text, int at);

    final class Result<T> {
        final T value;
        final int end;

        Result(T value, int end) {
            this.value = value;
            this.end = end;
        }

        boolean isFailure() {
            return end < 0;
        }

        static <T> Result<T> failure() {
            return new Result<>(null, -1);
        }
    }

    static Parser<Character> one(Predicate<? super Character> test) {
        return (text, at) -> at < text.length() && test.test(text.charAt(at))
            ? new Result<>(text.charAt(at), at + 1)
            : Result.failure();
    }

    default <U> Parser<U> map(Function<? super T, ? extends U> change) {
        return (text, at) -> {
            Result<T> read = parse(text, at);
            return read.isFailure() ? Result.failure() : new Result<U>(change.apply(read.value), read.end);
        };
    }

    default <U, R> Parser<R> then(Parser<U> next, BiFunction<T, U, R> both) {
        return (text, at) -> {
            Result<T> first = parse(text, at);
            if (first.isFailure()) {
                return Result.failure();
            }
            Result<U> second = next.parse(text, first.end);
            return second.isFailure() ? Result.failure() : new Result<>(both.apply(first.value, second.value), second.end);
        };
    }

    default Parser<List<T>> many() {
        return (text, at) -> {
            List<T> all = new ArrayList<>();
            int place = at;
            for (Result<T> read = parse(text, place); !read.isFailure(); read = parse(text, place)) {
                all.add(read.value);
                place = read.end;
            }
            return new Result<>(Collections.unmodifiableList(all), place);
        };
    }
}

class Digits {
    static final Parser<Integer> NUMBER = Parser.one(Character::isDigit).many().map(digits -> {
        int number = 0;
        for (char digit : digits) {
            number = number * 10 + digit - '0';
        }
        return number;
    });

    static boolean isNumber(String text) {
        return Objects.requireNonNull(NUMBER).parse(text, 0).end == text.length();
    }
}
