# Part of the table of try/messages.sh, which reads it: what is said of damaged images.

row "it has no store: page 0 does not begin with SPDKBLOB"
truncate -s 256K zeros
says 3 "blobtool: list zeros: it has no store: page 0 does not begin with SPDKBLOB" list zeros
script '0 df\n'
says 3 "blobtool: run zeros: it has no store: page 0 does not begin with SPDKBLOB" run zeros

row "it has no page of 4096 bytes, so it has no store"
head -c 4095 empty >short
says 3 "blobtool: list short: it has no page of 4096 bytes, so it has no store" list short

row "super block: FOUND, wanted WANTED; super block: its checksum is wrong, so page 0 is damaged"
damaged empty 0:8:4=2
says 3 "blobtool: list i: super block: format version 2, wanted 3" list i
damaged empty '!0:200=01'
says 3 "blobtool: exercise i: super block: its checksum is wrong, so page 0 is damaged" exercise i 1 1
damaged empty 0:92:4=512
says 3 "blobtool: list i: super block: metadata pages of 512 bytes, wanted 4096" list i

row "super block: REGION ends behind the last whole cluster; .. has .. pages, wanted ..; .. and .. have a page in \
common"
behind="ends behind the last whole cluster"
damaged empty 0:32:4=64
says 3 "blobtool: list i: super block: the page mask $behind" list i
damaged empty 0:40:4=64
says 3 "blobtool: list i: super block: the cluster mask $behind" list i
damaged empty 0:72:4=64
says 3 "blobtool: list i: super block: the blob-id mask $behind" list i
damaged empty 0:48:4=49
says 3 "blobtool: list i: super block: the metadata region $behind" list i
damaged empty 0:36:4=0
says 3 "blobtool: list i: super block: the page mask has 0 pages, wanted at least 1" list i
damaged empty 0:44:4=0
says 3 "blobtool: list i: super block: the cluster mask has 0 pages, wanted at least 1" list i
damaged empty 0:76:4=0
says 3 "blobtool: list i: super block: the blob-id mask has 0 pages, wanted at least 1" list i
# The starts of the four regions behind the super block, at which they stand there, and their names.
starts=(- 32 40 72 48)
regions=("the super block" "the page mask" "the cluster mask" "the blob-id mask" "the metadata region")
for one in 0 1 2 3; do
    for ((other = one + 1; other <= 4; other++)); do
        damaged empty "0:${starts[other]}:4=$one"
        common="${regions[one]} and ${regions[other]} have a page in common, wanted none"
        says 3 "blobtool: list i: super block: $common" list i
    done
done

row "the store has N bytes, but the image only M pages of 4096 bytes"
head -c 81920 empty >cut
says 3 "blobtool: list cut: the store has 262144 bytes, but the image only 20 pages of 4096 bytes" list cut

row "clusters of N bytes, wanted ..; N metadata pages, wanted ..; N clusters, wanted .."
cluster="wanted a multiple of 4096 from 4096 to 4294963200"
damaged empty 0:28:4=5000
says 3 "blobtool: list i: clusters of 5000 bytes, $cluster" list i
damaged empty 0:52:4=1048577
says 3 "blobtool: list i: 1048577 metadata pages, wanted at most 1048576" list i
damaged empty 0:28:4=4096 0:80:8=68719480832
says 3 "blobtool: list i: 16777217 clusters, wanted at most 16777216" list i
cp empty i
says 3 "blobtool: format i: clusters of 4294967295 bytes, $cluster" format i --cluster 4294967296
says 3 "blobtool: format i: 1048577 metadata pages, wanted at most 1048576" format i --md-pages 1048577
truncate -s $((16777217 * 4096)) large
says 3 "blobtool: format large: 16777217 clusters, wanted at most 16777216" format large --cluster 4096 --md-pages 16
rm large

row "it has N pages of 4096 bytes, wanted at least M for the new store"
truncate -s $((19 * 4096)) small
says 3 "blobtool: format small: it has 19 pages of 4096 bytes, wanted at least 20 for the new store" \
    format small --cluster 16384 --md-pages 16

# The pages of metadata begin at page 4. A volume's flags stand at byte 21 of its page, its map's one run at byte 115,
# or, of a clone, behind its parent's id at byte 123.
row "volume @P: its chain .., metadata page .., its map .., its slot .., a mark .., flags .."
damaged chain 4:4088:4=3
says 3 "blobtool: list i: volume @0: metadata page 0 links to 3, behind the metadata region's last page" list i
damaged chain 5:4088:4=0
says 3 "blobtool: list i: volume @0: its chain comes to metadata page 0 a second time" list i
damaged chain '!5:100=ff'
says 3 "blobtool: list i: volume @0: the checksum of metadata page 1 is wrong" list i
damaged chain 5:0:8=255
says 3 "blobtool: list i: volume @0: metadata page 1 is of the blob with id 0xff" list i
damaged chain 5:8:4=5
says 3 "blobtool: list i: volume @0: metadata page 1 has sequence 5, wanted 1" list i
damaged chain 5:17:4=5000
says 3 "blobtool: list i: volume @0: metadata page 1 has a bad descriptor of type 2 at byte 0 of its body" list i
damaged volume 4:21:8=5
says 3 "blobtool: list i: volume @0: it has flags that are not known, 0x4" list i
damaged volume 4:119:4=1048577
says 3 "blobtool: list i: volume @0: 1048577 slots, wanted at most 1048576" list i
damaged volume 4:115:4=1
says 3 "blobtool: list i: volume @0: its map has cluster 1, which is the store's own or behind its end" list i
damaged volume 4:21:8=0
says 3 "blobtool: list i: volume @0: it is thick, but its slot 0 has no cluster" list i
damaged family 4:110=040c00000004000400534e415001000000010800000000000000020000000000000000
says 3 "blobtool: list i: volume @0: a mark of 4 bytes, wanted 8" list i

row "volume @P: its parent ..; it is among its parents' parents"
damaged family 4:123:8=255
says 3 "blobtool: list i: volume @0: its parent with id 0xff is not there" list i
damaged family 5:29:8=0
says 3 "blobtool: list i: volume @0: its parent @1 is not read-only" list i
damaged family 4:29:8=1 5:21:8=3 5:131=041000000004000800534e41500000000001000000
says 3 "blobtool: list i: volume @0: it is among its parents' parents" list i

row "cluster N is in the maps of volume @P and of volume @Q; its volumes have N slots together, wanted .."
damaged two 5:115:4=5
says 3 "blobtool: list i: cluster 5 is in the maps of volume @0 and of volume @1" list i
edits=()
for page in {4..20}; do edits+=("$page:119:4=1048576"); done
damaged many "${edits[@]}"
says 3 "blobtool: list i: its volumes have 17825792 slots together, wanted at most 16777216" list i

# A snapshot that is being made and has a chain of two pages, whose second one it would write anew, and its volume.
row "volume @P: N metadata pages are clear, wanted M for its repair"
damaged chain 4:21:8=3 4:3120=041300000007000800534e4150544d500200000001000000 \
    6:21:8=3 6:123=041000000004000800534e41500000000001000000
script '0 df\n'
says 3 "blobtool: run i: volume @0: 0 metadata pages are clear, wanted 1 for its repair" run i
says 0 "" list i
