PRAGMA journal_mode = WAL;
CREATE TABLE votes (
    article TEXT NOT NULL,
    user INTEGER NOT NULL CHECK (user >= 0),
    weight INTEGER NOT NULL CHECK (weight >= 0)
);
CREATE INDEX votes_of_article ON votes (article, user, weight);
