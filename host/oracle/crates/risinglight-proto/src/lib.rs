//! Stands in for the generated protobuf types: the names that block.rs and the builders mention. Document 01 leaves out what
//! they are for (statistics, and a block's type and checksum).
pub mod rowset {
    #[derive(Clone, Debug, Default, PartialEq)]
    pub struct BlockStatistics {
        pub block_stat_type: i32,
        pub body: Vec<u8>,
    }

    pub mod block_statistics {
        #[derive(Clone, Copy, Debug)]
        pub enum BlockStatisticsType {
            DistinctValue = 0,
        }
    }

    macro_rules! one_number {
        ($name:ident) => {
            #[derive(Clone, Copy, Debug, Default)]
            pub struct $name(i32);

            impl From<$name> for i32 {
                fn from(x: $name) -> i32 {
                    x.0
                }
            }

            impl TryFrom<i32> for $name {
                type Error = ();

                fn try_from(x: i32) -> Result<Self, ()> {
                    Ok($name(x))
                }
            }
        };
    }

    pub mod block_checksum {
        one_number!(ChecksumType);
    }

    pub mod block_index {
        one_number!(BlockType);
    }
}
