CREATE TABLE votes (article text NOT NULL, voter bigint NOT NULL, weight bigint NOT NULL);
CREATE INDEX ON votes (article);
-- So that a statement that waits for a lock has its snapshot before.
ALTER ROLE postgres SET default_transaction_isolation = 'repeatable read';
