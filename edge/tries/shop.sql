CREATE TABLE orders (id bigint PRIMARY KEY, client text NOT NULL, day date NOT NULL, total numeric, paid boolean, note jsonb);
CREATE INDEX ON orders (client, day);
INSERT INTO orders VALUES
    (1, 'acme', '2026-01-01', 1.50, true, '{"a": 1}'),
    (2, 'acme', '2026-01-01', NULL, false, NULL),
    (3, 'a:b\', '2026-01-02', 'NaN', NULL, '"two\nlines \"é\""'),
    (4, 'a:b\', '2026-01-03', NULL, NULL, NULL);
CREATE TABLE prices (price numeric NOT NULL, what text);
INSERT INTO prices VALUES (1.0, 'one'), (1.00, 'two');
CREATE TABLE times (at timestamptz NOT NULL, what text);
INSERT INTO times VALUES ('2026-01-01 12:00:00+02', 'then');
CREATE TABLE other (id int PRIMARY KEY);
INSERT INTO other VALUES (1);
CREATE TABLE sales (id bigint PRIMARY KEY, client text NOT NULL, day date NOT NULL, total numeric(8, 2));
INSERT INTO sales SELECT id, client, day, nullif(total, 'NaN') FROM orders;
CREATE TABLE votes (article bigint, voter bigint, PRIMARY KEY (article, voter));
INSERT INTO votes SELECT it % 3, it FROM generate_series(1, 9) AS it;
