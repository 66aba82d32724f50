# Makes an image with the commands, and with PHP over the library. The packages of a release are in this folder.
FROM debian:12-slim
COPY argon2-proved_*_amd64.deb libargon2-1_*_amd64.deb /packages/
RUN apt-get update \
    && apt-get install -y --no-install-recommends php-cli /packages/*.deb \
    && rm -r /packages /var/lib/apt/lists/*
USER nobody
