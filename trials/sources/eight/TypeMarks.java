package typemarks;

import java.lang.annotation.ElementType;
import java.lang.annotation.Repeatable;
import java.lang.annotation.Retention;
import java.lang.annotation.RetentionPolicy;
import java.lang.annotation.Target;
import java.util.ArrayList;
import java.util.List;
import java.util.Map;

/** Annotations of types and repeated ones. */
@Retention(RetentionPolicy.RUNTIME)
@Target({ElementType.TYPE_USE, ElementType.TYPE_PARAMETER})
@Repeatable(Kinds.class)
@interface Kind {
    String value() default "";
}

@Retention(RetentionPolicy.RUNTIME)
@Target({ElementType.TYPE_USE, ElementType.TYPE_PARAMETER})
@interface Kinds {
    Kind[] value();
}

class Typed<@Kind("parameter") T extends @Kind("bound") Object & @Kind Comparable<@Kind("argument") T>>
    extends @Kind("super") ArrayList<@Kind("one") @Kind("two") T> {
    @Kind Map<@Kind("key") ? extends @Kind Object, @Kind("value") String @Kind("array") []> field;

    <@Kind M> @Kind("result") M go(@Kind Typed<T> this, @Kind("taken") M taken) throws @Kind("thrown") RuntimeException {
        @Kind("local") List<@Kind M> list = new @Kind("made") ArrayList<@Kind M>();
        Object cast = (@Kind("cast") Object) list;
        if (cast instanceof @Kind("tested") List) {
            return taken;
        }
        try {
            return null;
        } catch (@Kind("caught") IllegalStateException error) {
            throw error;
        }
    }
}
