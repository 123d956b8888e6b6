-- The same rows in a table whose changes tell all of a row, and in one whose changes tell its primary key.
CREATE TABLE votes (article text NOT NULL, voter bigint NOT NULL, weight bigint NOT NULL);
CREATE INDEX ON votes (article);
CREATE TABLE kept (
    id bigint GENERATED ALWAYS AS IDENTITY PRIMARY KEY,
    article text NOT NULL, voter bigint NOT NULL, weight bigint NOT NULL
);
CREATE INDEX ON kept (article);
CREATE FUNCTION keep() RETURNS trigger LANGUAGE plpgsql AS $$
DECLARE
    was bigint;
BEGIN
    IF tg_op = 'INSERT' THEN
        INSERT INTO kept (article, voter, weight) VALUES (NEW.article, NEW.voter, NEW.weight);
        RETURN NULL;
    END IF;
    SELECT min(id) INTO was FROM kept WHERE (article, voter, weight) = (OLD.article, OLD.voter, OLD.weight);
    IF tg_op = 'UPDATE' THEN
        UPDATE kept SET (article, voter, weight) = (NEW.article, NEW.voter, NEW.weight) WHERE id = was;
    ELSE
        DELETE FROM kept WHERE id = was;
    END IF;
    RETURN NULL;
END $$;
CREATE TRIGGER keep AFTER INSERT OR UPDATE OR DELETE ON votes FOR EACH ROW EXECUTE FUNCTION keep();
CREATE TABLE notes (note text);
